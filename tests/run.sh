#!/bin/sh
# Runs the built program on the kept, the fixed and the generated cases and compares output and exit status:
#     tests/run.sh [--seed S] [--count N] [--only NUMBER] [--case FOLDER ..] [--whole]
# It takes ./flame, which builds itself where it has to, or the program that the variable FLAME names. The last line is
# 'N passed, N failed', and the status is 0 only where none failed and at least 500 ran.
export PYTHONDONTWRITEBYTECODE=1
root=$(CDPATH= cd -- "$(dirname -- "$0")/.." && pwd) || exit 1

command -v python3 >/dev/null || { echo 'tests/run.sh: python3 is missing' >&2; exit 1; }
# The reference against what is known beforehand, in three processes.
python3 "$root/tests/check_reference.py" & known=$!
python3 "$root/tests/check_expressions.py" & expressions=$!
python3 "$root/tests/check_worksheets.py" & worksheets=$!
wait "$known"; one=$?
wait "$expressions"; two=$?
wait "$worksheets"; three=$?
[ "$one$two$three" = 000 ] || { echo '0 passed, 1 failed'; exit 1; }

program=${FLAME:-$root/flame}
# Without words the program ends with status 2; the first call builds ./flame.
"$program" </dev/null >/dev/null
status=$?
if [ "$status" -ne 2 ]; then
    command -v rt >/dev/null || echo 'tests/run.sh: rt is missing, which builds ./flame' >&2
    echo "tests/run.sh: $program can't be run: without words it ended with status $status and not with 2" >&2
    echo '0 passed, 1 failed'
    exit 1
fi
if [ "$program" = "$root/flame" ] && ! sh "$root/tests/script.sh"; then
    echo '0 passed, 1 failed'
    exit 1
fi
for test in scripts guide; do
    FLAME=$program python3 "$root/tests/$test.py" || { echo '0 passed, 1 failed'; exit 1; }
done
# Each twentieth allocation of some cases fails; `python3 tests/memory.py PROGRAM` has each of them fail in turn. They are made
# to fail in the program itself, and not in the shell that reads the script ./flame.
machine=$program
[ "$program" = "$root/flame" ] && machine=$root/crates/flame/out/flame
python3 "$root/tests/memory.py" "$machine" 20 || { echo '0 passed, 1 failed'; exit 1; }
FLAME=$program exec python3 "$root/tests/run.py" "$@"
