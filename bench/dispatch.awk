# A loop whose header has a switch of 1,000 cases and a phi with an entry for each of their blocks, some rounds long.
# -v rounds=N
BEGIN {
    print "define i32 @main() {\nentry:\n  br label %loop\nloop:"
    printf "  %%i = phi i32 [ 0, %%entry ]"
    for (k = 0; k < 1000; k++) printf ", [ %%i.next, %%c%d ]", k
    printf "\n  %%i.next = add i32 %%i, 1\n  %%k = urem i32 %%i, 1000\n  %%more = icmp ult i32 %%i, %d\n", rounds
    print "  %case = select i1 %more, i32 %k, i32 1000\n  switch i32 %case, label %exit ["
    for (k = 0; k < 1000; k++) printf "    i32 %d, label %%c%d\n", k, k
    print "  ]"
    for (k = 0; k < 1000; k++) printf "c%d:\n  br label %%loop\n", k
    print "exit:\n  ret i32 7\n}"
}
