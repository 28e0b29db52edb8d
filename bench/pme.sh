#!/bin/sh
# Times `pme` of the built program: bench/pme.sh, on every split of ten common operations and of the three with the largest
# families, beside `cat` on the text that is printed. The variable FLAME names a program that is built already. Wants python3.
root=$(CDPATH= cd -- "$(dirname -- "$0")/.." && pwd) || exit 1
data=$root/bench/data
mkdir -p "$data"
if [ -z "$FLAME" ]; then
    "$root/flame" derive <"$root/examples/mul.flame" >/dev/null || exit 1
fi
exec python3 "$root/bench/pme.py" "${FLAME:-$root/crates/flame/out/flame}" "$data"
