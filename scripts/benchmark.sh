#!/bin/bash
# Measures the machine in each layout: crates/nx_loop and the plain interpreter of
# scripts/interpreter.c run the same loop of RV32I instructions, one after the other. This prints how
# many instructions each makes in a second of processor time, and the machine's speed as a part of the
# interpreter's.
#
#     scripts/benchmark.sh [COUNT]      COUNT instructions, 50000000 where none is given
#
# It wants `rt`, and gcc of Debian's package gcc, in the path. It proves and builds nx_loop where
# that is not done yet.
set -eu

# Says where a program that isn't installed is found, and ends.
want() {
    command -v "$1" >/dev/null || { echo "$1 is not installed: it is in $2" >&2; exit 1; }
}
want rt "the Rattle kit, and in no package of Debian"
want gcc "Debian's package gcc"

count=${1:-50000000}
scripts=$(cd "$(dirname "$0")" && pwd)
folder=$(mktemp -d)
trap 'rm -rf "$folder"' EXIT

layouts=(flat protected paged)

# Proves and builds nx_loop, and keeps the loop's words.
(cd "$scripts/../crates/nx_loop" && rt run -- flat 0) | sed -n 's/^words //p' >"$folder/words"
gcc -O2 -o "$folder/interpreter" "$scripts/interpreter.c"

# The processor seconds of a command, whose output goes into a file.
seconds() {
    local out=$1 TIMEFORMAT=%U
    shift
    { time "$@" >"$out"; } 2>&1
}

plain=$(seconds "$folder/plain.out" "$folder/interpreter" "$folder/words" "$count")
cat "$folder/plain.out"
awk -v n="$count" -v plain="$plain" 'BEGIN {
    printf "interpreter.c: %.2f s, %.1f million instructions a second\n", plain, n / plain / 1e6
}'
for layout in "${layouts[@]}"; do
    machine=$(seconds "$folder/machine.out" "$scripts/../crates/nx_loop/out/nx_loop" "$layout" "$count")
    sed -i '/^words/d' "$folder/machine.out"
    if ! cmp -s "$folder/machine.out" "$folder/plain.out"; then
        echo "nx_loop $layout ends otherwise:"
        cat "$folder/machine.out"
        exit 1
    fi
    awk -v n="$count" -v machine="$machine" -v plain="$plain" -v layout="$layout" 'BEGIN {
        printf "nx_loop %s: %.2f s, %.1f million instructions a second, %.2f of the interpreter\n", layout, machine, n / machine / 1e6, plain / machine
    }'
done
