# Sourced by the benchmarks: makes a folder for files, builds the program where one asks for it, and times commands.
program=$here/../crates/scev/out/scev
peer=${OPT:-opt-22}
work=$(mktemp -d) || exit 2
trap 'rm -rf "$work"' EXIT

# the program, built where it isn't there yet
build() {
    "$here/../scev" print </dev/null >/dev/null 2>&1
}

# the least seconds of three runs of a command on a file
seconds() {
    file=$1
    shift
    for _ in 1 2 3; do
        start=$(date +%s.%N)
        "$@" <"$file" >"$work/out" 2>/dev/null || exit 1
        end=$(date +%s.%N)
        echo "$start $end"
    done | awk '{ t = $2 - $1; if (NR == 1 || t < least) least = t } END { printf "%.4f", least }'
}

# what clang writes for so many C functions of twelve loops, of about 13 KB each
kernels() {
    awk -v functions="$1" -f "$here/kernels.awk" >"$work/kernels.c"
    "${CLANG:-clang-22}" -O2 -fno-vectorize -fno-slp-vectorize -fno-unroll-loops -fno-builtin -mllvm -replexitval=never \
        -S -emit-llvm -o - "$work/kernels.c"
}
