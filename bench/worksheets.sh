#!/bin/sh
# What worksheets cost: bench/worksheets.sh [ROUNDS]. Makes every worksheet of each variant of ten common operations and checks
# it, and prints the seconds in the program beside what is asked of them; then the largest worksheet that an operation can have,
# beside ones with shorter names; then a check of texts as long as an input may be, and half as long. The variable FLAME names a
# program that is built already. Wants python3.
root=$(CDPATH= cd -- "$(dirname -- "$0")/.." && pwd) || exit 1
data=$root/bench/data
mkdir -p "$data"
if [ -z "$FLAME" ]; then
    "$root/flame" derive <"$root/examples/mul.flame" >/dev/null || exit 1
fi
exec python3 "$root/bench/worksheets.py" "${FLAME:-$root/crates/flame/out/flame}" "$data" "$@"
