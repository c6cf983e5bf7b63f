; Blanks and comments stand where they like, flags in any order.
define
i32 @count(i32 %n){entry: br label %loop ; in
loop: %i = phi i32 [4294967295, %entry], [%i.next, %loop]
  %i.next = add nsw nuw i32 %i,  -3
  %more = icmp ult i32 %i, 010
  br i1 %more, label %loop, label %exit
exit: ret i32 %i}
