#!/bin/sh
# What the merge gate costs from nothing: runs `rt ci --anew` and prints for each crate the processor minutes of its proof, of
# its tests and of its wrong bodies, the dearest first: bench/gate.sh, or bench/gate.sh PID for a run that is under way. Wants
# python3 and Linux's /proc.
root=$(CDPATH= cd -- "$(dirname -- "$0")/.." && pwd) || exit 1
exec python3 "$root/bench/gate.py" "$root" "$@"
