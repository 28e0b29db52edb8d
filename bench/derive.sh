#!/bin/sh
# Times `derive` of the built program: bench/derive.sh, on ten common operations and on the three with the largest
# families, beside `cat` on the text that is printed. bench/derive.sh search derives every operation that a text can
# state, up to what families depend on, and prints the largest families. The variable FLAME names a program that is
# built already. Wants python3.
root=$(CDPATH= cd -- "$(dirname -- "$0")/.." && pwd) || exit 1
data=$root/bench/data
mkdir -p "$data"
if [ -z "$FLAME" ]; then
    "$root/flame" derive <"$root/examples/mul.flame" >/dev/null || exit 1
fi
exec python3 "$root/bench/derive.py" "${1:-run}" "${FLAME:-$root/crates/flame/out/flame}" "$data"
