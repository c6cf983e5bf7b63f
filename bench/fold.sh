#!/bin/sh
# Times operations on expressions, by a program that calls the crates: 100,000 sums of two affine recurrences each, all
# different, interned in one arena; 1,000 products of two recurrences of degree 4; and a million sums of a register and
# a number. Each is run three times with the least time kept, and the time that the program takes for nothing is taken
# off. Prints operations, seconds, and microseconds an operation. The program is built first where it isn't there yet.
here=$(dirname "$(readlink -f "$0")") || exit 2
. "$here/seconds.sh"
bench=$here/../crates/fold_bench/out/fold_bench
[ -x "$bench" ] || (cd "$here/../crates/fold_bench" && rt run -- none >/dev/null) || exit 1
: >"$work/in"

line() {
    took=$(seconds "$work/in" "$bench" "$1") || exit 1
    grep -q formed "$work/out" || exit 1
    awk -v w="$1" -v n="$2" -v t="$took" -v z="$nothing" 'BEGIN {
        printf "%-10s %8d %10.4f %10.3f\n", w, n, t - z, (t - z) * 1e6 / n }'
}

nothing=$(seconds "$work/in" "$bench" none)
printf '%-10s %8s %10s %10s\n' formed count seconds each
line sums 100000
line products 1000
line small 1000000
