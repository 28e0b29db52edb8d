#!/bin/sh
# Holds the script ./flame to what it promises beside the program: usage, a link to it, what it says on standard error, and
# that a program that can't be built ends with 70. Prints a line for each failure, and ends with 1 where there is one.
root=$(CDPATH= cd -- "$(dirname -- "$0")/.." && pwd) || exit 1
place=$(mktemp -d) || exit 1
trap 'rm -rf "$place"' EXIT
failed=0

# expect WHAT STATUS FOUND: the status that was found is the one that is due
expect() {
    if [ "$2" != "$3" ]; then
        echo "FAILED script: $1: due $2, found $3"
        failed=1
    fi
}

for word in help -h --help; do
    "$root/flame" "$word" </dev/null >"$place/out" 2>"$place/err"
    expect "$word" 0 $?
    expect "$word prints the usage" 1 "$(grep -c '^usage: flame COMMAND' "$place/out")"
    expect "$word says nothing else" 0 "$(wc -c <"$place/err" | tr -d ' ')"
done

"$root/flame" help me </dev/null >"$place/out" 2>"$place/err"
expect 'help is no command of the program' 2 $?
expect 'bad words on standard output' 'bad words' "$(cat "$place/out")"
expect 'usage on standard error' 1 "$(grep -c '^usage: flame COMMAND' "$place/err")"

ln -s "$root/flame" "$place/link"
(cd "$place" && ./link derive <"$root/examples/mul.flame" >out 2>err)
expect 'by a link' 0 $?
expect 'a link builds nothing' 0 "$(wc -c <"$place/err" | tr -d ' ')"

"$root/flame" run --block 1 --workers 1 <"$root" >"$place/out" 2>"$place/err"
expect 'an input that can not be read' 1 $?
expect 'is told' 'flame: the input could not be read' "$(cat "$place/err")"

cp "$root/flame" "$place/flame"
mkdir "$place/crates"
touch "$place/crates.txt"
PATH=/usr/bin:/bin "$place/flame" derive </dev/null >"$place/out" 2>"$place/err"
expect 'without the toolchain' 70 $?
expect 'the toolchain is named' 1 "$(grep -c 'rt, which proves and builds it, is missing' "$place/err")"

exit $failed
