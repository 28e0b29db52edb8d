#!/bin/sh
# Times a product, a solve and LU by flame and by the libraries that are installed, in one run: bench/compare.sh [N [MODULUS
# [ROUNDS [WORKERS]]]]. Of Debian's libflint-dev, libntl-dev and fflas-ffpack what is there is used, and what isn't is told.
# Wants python3, and a compiler (CC, CXX) for the programs in bench/peers.
root=$(CDPATH= cd -- "$(dirname -- "$0")/.." && pwd) || exit 1
n=${1:-512}
modulus=${2:-67108859}
rounds=${3:-5}
workers=${4:-1}
case $n$modulus$rounds$workers in
    *[!0-9]*)
        echo 'usage: bench/compare.sh [N [MODULUS [ROUNDS [WORKERS]]]]' >&2
        exit 2
        ;;
esac
data=$root/bench/data
mkdir -p "$data"
peers=

# peer NAME PACKAGE COMPILER FILE LIBRARIES..: compiles a program, or tells why it is left out
peer() {
    name=$1 package=$2 compiler=$3 file=$4
    shift 4
    if ! command -v "$compiler" >/dev/null; then
        echo "$name is left out: there is no compiler $compiler"
    elif "$compiler" -O3 -march=native -o "$data/$name" "$root/bench/peers/$file" "$@" 2>"$data/$name.log"; then
        peers="$peers $data/$name"
    elif grep -q 'No such file or directory\|cannot find -l' "$data/$name.log"; then
        echo "$name is left out: $package is not installed"
    else
        echo "$name is left out: bench/peers/$file can't be compiled; see bench/data/$name.log"
    fi
}

peer flint libflint-dev "${CC:-cc}" flint.c -lflint -lgmp
peer ntl libntl-dev "${CXX:-c++}" ntl.cpp -lntl -lgmp -lpthread -lm
flags=$(pkg-config --cflags --libs fflas-ffpack 2>/dev/null) || flags='-lgivaro -lgmp -lblas'
# The flags are words.
# shellcheck disable=SC2086
peer fflas fflas-ffpack "${CXX:-c++}" fflas.cpp $flags

program=${FLAME:-$root/flame}
"$program" run --block 1 --workers 1 <"$root/examples/mul.flame" >/dev/null || exit 1
if [ "$program" = "$root/flame" ]; then program=$root/crates/flame/out/flame; fi
# Unquoted: a word for each program.
exec python3 "$root/bench/compare.py" "$n" "$modulus" "$rounds" "$workers" "$data" "$program" $peers
