; A loop in a loop. Both headers need a phi of memory.
define void @sum(ptr %from, ptr %to, i32 %rows, i32 %columns) {
entry:
  br label %row

row:
  %r = phi i32 [ 0, %entry ], [ %r.next, %row.end ]
  store i32 0, ptr %to, align 4
  br label %column

column:
  %c = phi i32 [ 0, %row ], [ %c.next, %column ]
  %value = load i32, ptr %from, align 4
  %old = load i32, ptr %to, align 4
  %new = add nsw i32 %old, %value
  store i32 %new, ptr %to, align 4
  %c.next = add nuw i32 %c, 1
  %c.more = icmp ult i32 %c.next, %columns
  br i1 %c.more, label %column, label %row.end

row.end:
  %r.next = add nuw i32 %r, 1
  %r.more = icmp ult i32 %r.next, %rows
  br i1 %r.more, label %row, label %done

done:
  ret void
}
