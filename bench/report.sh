#!/bin/sh
# Times `scev report` and LLVM 22's `print<scalar-evolution>` side by side: on functions of many one-block loops with
# eight phis each, and on functions of a single loop with many phis. Each run is made three times with the least time
# kept. Prints seconds, their ratio, and how the time grew from each size to the next. The peer works out more: flags,
# counts and every value; its three runs on four hundred loops take long. Needs opt-22 (Debian's llvm-22) and the
# built program (./scev builds it).
here=$(dirname "$(readlink -f "$0")") || exit 2
. "$here/seconds.sh"
build

# prints the line of the table for so many loops, with so many phis each
measure() {
    awk -v loops="$1" -v phis="$2" -f "$here/loops.awk" >"$work/in.ll"
    ours=$(seconds "$work/in.ll" "$program" report)
    found=$(grep -c '^; phi .* = {' "$work/out")
    [ "$found" -eq $(($1 * $2)) ] || echo "scev reported $found recurrences" >&2
    theirs=$(seconds "$work/in.ll" "$peer" -passes='print<scalar-evolution>' -disable-output)
    awk -v l="$1" -v n="$2" -v b="$(wc -c <"$work/in.ll")" -v a="$ours" -v p="$theirs" -v o="$old" -v q="$old_peer" 'BEGIN {
        printf "%8d %8d %10d %10.4f %10.4f %8.2f %8s %8s\n", l, n, b, a, p, a / p, o ? sprintf("%.1f", a / o) : "-", q ? sprintf("%.1f", p / q) : "-" }'
    old=$ours
    old_peer=$theirs
}

printf '%8s %8s %10s %10s %10s %8s %8s %8s\n' loops phis bytes scev opt ratio growth opt-growth
old=0
old_peer=0
for loops in 40 130 400; do
    measure $loops 8
done
old=0
old_peer=0
for phis in 40 400 4000; do
    measure 1 $phis
done
