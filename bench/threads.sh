#!/bin/sh
# What several workers gain: bench/threads.sh [ROUNDS [N]]. Prints what a product, a factorisation and `selfrun` of N rows (1,024)
# take by 1, 2, 4 and 16 workers, beside as many processes of one worker each at once, which is the limit that the machine gives;
# what a step costs on blocks of one entry; and the memory; each beside what is asked of it on four idle processors. Builds
# ./flame, for AVX2 where the processor has it, which proves it; the variable FLAME names a program that is built already. Wants
# python3.
root=$(CDPATH= cd -- "$(dirname -- "$0")/.." && pwd) || exit 1
data=$root/bench/data
mkdir -p "$data"
if [ -z "$FLAME" ]; then
    "$root/flame" run --block 1 --workers 1 <"$root/examples/mul.flame" >/dev/null || exit 1
fi
exec python3 "$root/bench/threads.py" "${FLAME:-$root/crates/flame/out/flame}" "$data" "$@"
