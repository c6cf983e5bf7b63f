#!/bin/sh
# Times `scev eval` and the interpreter of LLVM 22 side by side, on runs of nearly a million steps: a nest of loops over
# an array, from C by clang 22 (nest.c); a ring of 1,024 blocks; and a loop with a switch of 1,000 cases, whose blocks
# all lead back to one phi. Both must give the same number. Each is run three times with the least time kept; of both
# the time is taken off that reading the text and a run of no steps takes. Prints steps, seconds, and millions of steps
# a second. Needs clang-22 and lli-22 (Debian's clang-22 and llvm-22) and the built program (./scev builds it).
here=$(dirname "$(readlink -f "$0")") || exit 2
. "$here/seconds.sh"
build
interpreter=${LLI:-lli-22}

evaluated() {
    "$program" eval --function main --steps "$1"
}

# the exit status is what the function returns
interpreted() {
    "$interpreter" -force-interpreter=true "$1"
    [ $? -eq "$2" ]
}

line() {
    outcome=$(evaluated 1000000 <"$work/in.ll") || exit 1
    answer=$(echo "$outcome" | awk '/^returned/ { print $2 }')
    steps=$(echo "$outcome" | awk '/^steps/ { print $2 }')
    { sed 's/@main()/@other()/' "$work/in.ll"; echo 'define i32 @main() { ret i32 0 }'; } >"$work/none.ll"
    ours=$(seconds "$work/in.ll" evaluated 1000000)
    read=$(seconds "$work/in.ll" evaluated 0)
    theirs=$(seconds "$work/in.ll" interpreted "$work/in.ll" "$answer")
    start=$(seconds "$work/none.ll" interpreted "$work/none.ll" 0)
    awk -v w="$1" -v n="$steps" -v a="$ours" -v r="$read" -v p="$theirs" -v s="$start" 'BEGIN {
        a -= r; p -= s
        printf "%-10s %8d %10.4f %10.4f %8.2f %8.1f %8.1f\n", w, n, a, p, a / p, n / a / 1e6, n / p / 1e6 }'
}

printf '%-10s %8s %10s %10s %8s %8s %8s\n' text steps scev lli ratio 'scev M/s' 'lli M/s'
"${CLANG:-clang-22}" -DROUNDS=95 -O1 -fno-vectorize -fno-slp-vectorize -fno-unroll-loops -fno-builtin \
    -mllvm -replexitval=never -S -emit-llvm -o "$work/in.ll" "$here/nest.c"
line nest
awk -v rounds=480 -f "$here/ring.awk" >"$work/in.ll"
line ring
awk -v rounds=160000 -f "$here/dispatch.awk" >"$work/in.ll"
line dispatch
