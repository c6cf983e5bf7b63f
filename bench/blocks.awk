# Functions of blocks that each lead to the next one and to the second one, with so many additions in each.
# -v functions=N -v blocks=N -v adds=N
BEGIN {
    for (f = 0; f < functions; f++) {
        printf "define i32 @f%d(i1 %%c) {\nb0:\n  br label %%b1\n", f
        for (b = 1; b < blocks; b++) {
            printf "b%d:\n", b
            for (k = 0; k < adds; k++)
                printf "  %%v%d.%d = add i32 %s, 1\n", b, k, k ? "%v" b "." (k - 1) : (adds && b > 1 ? "%v" (b - 1) ".0" : b)
            printf "  br i1 %%c, label %%b%d, label %%b1\n", b + 1
        }
        printf "b%d:\n  ret i32 0\n}\n", blocks
    }
}
