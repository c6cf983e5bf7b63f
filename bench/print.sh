#!/bin/sh
# Times `scev print` and `opt -S` of LLVM 22 side by side on real modules: what clang 22 writes for C functions of
# twelve loops each (kernels.awk), of about 80 KB, 800 KB and 8 MB, and each file that is given as an argument. Each is
# run three times with the least time kept. Prints seconds, their ratio, how the time grew from each size to the next,
# and the peak memory of `scev` for each byte of input. Needs clang-22 and opt-22 (Debian's clang-22 and llvm-22),
# /usr/bin/time and the built program (./scev builds it).
here=$(dirname "$(readlink -f "$0")") || exit 2
. "$here/seconds.sh"
build

line() {
    ours=$(seconds "$work/in.ll" "$program" print)
    theirs=$(seconds "$work/in.ll" "$peer" -S)
    peak=$(/usr/bin/time -f %M "$program" print <"$work/in.ll" 2>&1 >/dev/null | tail -n 1)
    awk -v b="$(wc -c <"$work/in.ll")" -v a="$ours" -v p="$theirs" -v o="$1" -v k="$peak" 'BEGIN {
        printf "%10d %10.4f %10.4f %8.2f %8s %10.1f\n", b, a, p, a / p, o ? sprintf("%.1f", a / o) : "-", k * 1024 / b }'
}

printf '%10s %10s %10s %8s %8s %10s\n' bytes scev opt ratio growth 'peak/byte'
ours=0
for functions in 6 62 620; do
    kernels $functions >"$work/in.ll"
    line "$ours"
done
for file in "$@"; do
    cp "$file" "$work/in.ll"
    line 0
done
