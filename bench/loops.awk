# Writes one function of so many one-block loops in a row with so many phis each:
# awk -v loops=1000 -v phis=8 -f loops.awk
BEGIN {
    printf "define i32 @f(i32 %%n) {\nentry:\n  br label %%b0\n"
    before = "entry"
    for (k = 0; k < loops; k++) {
        printf "b%d:\n", k
        for (p = 0; p < phis; p++)
            printf "  %%i%d.%d = phi i32 [ %d, %%%s ], [ %%s%d.%d, %%b%d ]\n", k, p, p - 3, before, k, p, k
        for (p = 0; p < phis; p++)
            printf "  %%s%d.%d = add i32 %%i%d.%d, %d\n", k, p, k, p, 1 + (k + p) % 7
        printf "  %%c%d = icmp ult i32 %%s%d.0, %%n\n  br i1 %%c%d, label %%b%d, label %%b%d\n", k, k, k, k, k + 1
        before = "b" k
    }
    printf "b%d:\n  ret i32 %%s%d.0\n}\n", k, k - 1
}
