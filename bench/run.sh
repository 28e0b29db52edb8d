#!/bin/sh
# Times the built program on W + A * B' and checks its result: bench/run.sh [N] [MODULUS]
# Makes the input (seeded), prints the rates of the product and of the text beside that of `wc -w` on the same file,
# the memory, the time of a job with as many parts as a text may have, and whether the product added to W is what was
# printed, by a few random vectors. Wants python3.
root=$(CDPATH= cd -- "$(dirname -- "$0")/.." && pwd) || exit 1
n=${1:-1024}
modulus=${2:-4294967291}
data=$root/bench/data
mkdir -p "$data"
python3 "$root/bench/run.py" make "$n" "$modulus" "$data"
"$root/flame" run --block 1 --workers 1 <"$root/examples/mul.flame" >/dev/null || exit 1
exec python3 "$root/bench/run.py" time "$n" "$modulus" "$data" "$root/crates/flame/out/flame"
