; int spread(int n) { int i = 0, k = 100, s = 0; do { s += i; i += 4; k -= 3; } while (i < n);
;   return s + k; }
; by clang and opt -passes=mem2reg,simplifycfg,instcombine, without attributes and metadata
define i32 @spread(i32 %n) {
entry:
  br label %do.body

do.body:                                          ; preds = %do.body, %entry
  %k.0 = phi i32 [ 100, %entry ], [ %sub, %do.body ]
  %i.0 = phi i32 [ 0, %entry ], [ %add1, %do.body ]
  %s.0 = phi i32 [ 0, %entry ], [ %add, %do.body ]
  %add = add nuw nsw i32 %s.0, %i.0
  %add1 = add nuw nsw i32 %i.0, 4
  %sub = add nsw i32 %k.0, -3
  %cmp = icmp slt i32 %add1, %n
  br i1 %cmp, label %do.body, label %do.end

do.end:                                           ; preds = %do.body
  %add2 = add nsw i32 %add, %sub
  ret i32 %add2
}
