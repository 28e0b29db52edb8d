#!/bin/sh
# What steps cost: bench/steps.sh [ROUNDS [N [BLOCK]]]. Prints what it takes to list, analyse, run and trace the most steps
# that a job may have, how fast a trace is printed, the memory, what an event of a machine takes, and what `selfrun` of N rows
# (1,024) under a block size (128) takes beside the same calls of the kernels, each beside what is asked of it. Builds ./flame,
# crates/kernel_bench and crates/machine_bench, for AVX2 where the processor has it, which proves them; the variables FLAME,
# KERNEL_BENCH and MACHINE_BENCH name programs that are built already. Wants python3.
root=$(CDPATH= cd -- "$(dirname -- "$0")/.." && pwd) || exit 1
data=$root/bench/data
mkdir -p "$data"
if [ -z "$FLAME" ]; then
    "$root/flame" run --block 1 --workers 1 <"$root/examples/mul.flame" >/dev/null || exit 1
fi
cpu=
if grep -qw avx2 /proc/cpuinfo 2>/dev/null; then cpu='--cpu x86-64-v3'; fi
if [ -z "$KERNEL_BENCH" ]; then
    (cd "$root/crates/kernel_bench" && rt run $cpu </dev/null) >/dev/null || exit 1
fi
if [ -z "$MACHINE_BENCH" ]; then
    (cd "$root/crates/machine_bench" && rt run $cpu </dev/null) >/dev/null || exit 1
fi
exec python3 "$root/bench/steps.py" "${KERNEL_BENCH:-$root/crates/kernel_bench/out/kernel_bench}" \
    "${MACHINE_BENCH:-$root/crates/machine_bench/out/machine_bench}" "${FLAME:-$root/crates/flame/out/flame}" "$data" "$@"
