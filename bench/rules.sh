#!/bin/sh
# Times the checks of well-formedness beside the reading of the same text: what clang 22 writes for C functions
# of twelve loops each (kernels.awk), of 8 MB; one function of 1,024 blocks with eight instructions each; 1,024
# functions of some blocks, up to 8 MB; a switch of 100,000 cases; and each file that is given as an argument. A text
# that ends in a token with which no module can go on is read and no more; one whose last function breaks a rule is
# read and checked. Each is run three times with the least time kept. Prints bytes, the seconds of both and the
# difference, which are the checks'. Needs clang-22 (Debian's clang-22) and the built program
# (./scev builds it).
here=$(dirname "$(readlink -f "$0")") || exit 2
. "$here/seconds.sh"
build

# a run that refuses its input
refused() {
    "$program" print
    [ $? -eq 3 ]
}

line() {
    { cat "$work/in.ll"; echo '}'; } >"$work/read.ll"
    { cat "$work/in.ll"; echo 'define i1 @"last one"() { a: ret i2 0 }'; } >"$work/checked.ll"
    read=$(seconds "$work/read.ll" refused)
    checked=$(seconds "$work/checked.ll" refused)
    awk -v n="$1" -v b="$(wc -c <"$work/in.ll")" -v r="$read" -v c="$checked" 'BEGIN {
        printf "%-10s %10d %10.4f %10.4f %10.4f\n", n, b, r, c, c - r }'
}

printf '%-10s %10s %10s %10s %10s\n' text bytes read 'and check' checks
kernels 620 >"$work/in.ll"
line real
awk -v functions=1 -v blocks=1023 -v adds=7 -f "$here/blocks.awk" >"$work/in.ll"
line blocks
awk -v functions=1000 -v blocks=100 -v adds=0 -f "$here/blocks.awk" >"$work/in.ll"
line functions
awk -v functions=200 -v blocks=1000 -v adds=0 -f "$here/blocks.awk" >"$work/in.ll"
line both
awk 'BEGIN {
    print "define void @f(i32 %x) {\na:\n  switch i32 %x, label %b ["
    for (k = 0; k < 100000; k++) print "    i32 " k ", label %b"
    print "  ]\nb:\n  ret void\n}" }' >"$work/in.ll"
line switch
for file in "$@"; do
    cp "$file" "$work/in.ll"
    line "$(basename "$file" | cut -c 1-10)"
done
