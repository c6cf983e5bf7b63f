# A function of 1,024 blocks that each lead to the next one with an addition, the last one to the second, some rounds
# long. -v rounds=N
BEGIN {
    print "define i32 @main() {\nb0:\n  br label %b1\nb1:"
    print "  %i = phi i32 [ 0, %b0 ], [ %i.next, %b1022 ]\n  br label %b2"
    for (b = 2; b < 1022; b++)
        printf "b%d:\n  %%v%d = add i32 %%i, %d\n  br label %%b%d\n", b, b, b, b + 1
    printf "b1022:\n  %%i.next = add i32 %%i, 1\n  %%more = icmp ult i32 %%i.next, %d\n", rounds
    print "  br i1 %more, label %b1, label %b1023\nb1023:\n  ret i32 7\n}"
}
