#!/bin/sh
# What `run` costs under block sizes: bench/blocks.sh [ROUNDS [N]]. Prints the rates of a product, a solve and an LU of N rows
# (1,024) under blocks of 32 to 256 beside that of the kernel `update`, what cutting and gathering cost, the time of a step on
# blocks of one entry, and the memory, each beside what is asked of it. Builds ./flame and crates/kernel_bench, for AVX2 where
# the processor has it, which proves them. Wants python3.
root=$(CDPATH= cd -- "$(dirname -- "$0")/.." && pwd) || exit 1
data=$root/bench/data
mkdir -p "$data"
"$root/flame" run --block 1 --workers 1 <"$root/examples/mul.flame" >/dev/null || exit 1
cpu=
if grep -qw avx2 /proc/cpuinfo 2>/dev/null; then cpu='--cpu x86-64-v3'; fi
(cd "$root/crates/kernel_bench" && rt run $cpu </dev/null) >/dev/null || exit 1
exec python3 "$root/bench/blocks.py" "$root/crates/kernel_bench/out/kernel_bench" "$root/crates/flame/out/flame" "$data" "$@"
