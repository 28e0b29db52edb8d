#!/bin/sh
# Prints the rates of the kernels beside that of the plain product loop: bench/kernels.sh [ROUNDS [NAME..]]
# Builds the program crates/kernel_bench, for AVX2 where the processor has it, which proves it. Wants python3.
root=$(CDPATH= cd -- "$(dirname -- "$0")/.." && pwd) || exit 1
cpu=
if grep -qw avx2 /proc/cpuinfo 2>/dev/null; then cpu='--cpu x86-64-v3'; fi
(cd "$root/crates/kernel_bench" && rt run $cpu </dev/null) >/dev/null || exit 1
exec python3 "$root/bench/kernels.py" "$root/crates/kernel_bench/out/kernel_bench" "$@"
