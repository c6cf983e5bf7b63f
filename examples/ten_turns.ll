define i32 @f() {
entry:
  br label %loop
loop:
  %i = phi i32 [ 0, %entry ], [ %i.next, %body ]
  %c = icmp ult i32 %i, 10
  br i1 %c, label %body, label %exit
body:
  %i.next = add i32 %i, 1
  br label %loop
exit:
  ret i32 %i
}
