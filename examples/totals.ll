; ModuleID = '<stdin>'
source_filename = "examples/totals.c"
target datalayout = "e-m:e-p270:32:32-p271:32:32-p272:64:64-i64:64-i128:128-f80:128-n8:16:32:64-S128"
target triple = "x86_64-pc-linux-gnu"

@limit = dso_local global i32 100, align 4
@seen = dso_local global [4 x i32] zeroinitializer, align 16

; Function Attrs: noinline nounwind uwtable
define dso_local i32 @sum_text(ptr noundef %text, ptr noundef %passes) #0 {
entry:
  store i32 0, ptr %passes, align 4
  br label %for.cond

for.cond:                                         ; preds = %for.inc, %entry
  %text.addr.0 = phi ptr [ %text, %entry ], [ %incdec.ptr, %for.inc ]
  %total.0 = phi i32 [ 0, %entry ], [ %total.1, %for.inc ]
  %0 = load i8, ptr %text.addr.0, align 1
  %tobool.not = icmp eq i8 %0, 0
  br i1 %tobool.not, label %for.end, label %for.body

for.body:                                         ; preds = %for.cond
  %1 = load i8, ptr %text.addr.0, align 1
  %conv = sext i8 %1 to i32
  %add = add nsw i32 %total.0, %conv
  %2 = load i32, ptr @limit, align 4
  %cmp = icmp sgt i32 %add, %2
  br i1 %cmp, label %if.then, label %for.inc

if.then:                                          ; preds = %for.body
  %3 = load i32, ptr %passes, align 4
  %add2 = add nsw i32 %3, 1
  store i32 %add2, ptr %passes, align 4
  %4 = load i32, ptr @limit, align 4
  %sub = sub nsw i32 %add, %4
  br label %for.inc

for.inc:                                          ; preds = %for.body, %if.then
  %total.1 = phi i32 [ %sub, %if.then ], [ %add, %for.body ]
  %incdec.ptr = getelementptr inbounds i8, ptr %text.addr.0, i64 1
  br label %for.cond, !llvm.loop !6

for.end:                                          ; preds = %for.cond
  ret i32 %total.0
}

; Function Attrs: noinline nounwind uwtable
define dso_local i32 @step(ptr noundef %p, i8 noundef signext %way) #0 {
entry:
  br label %NodeBlock7

NodeBlock7:                                       ; preds = %entry
  %Pivot8 = icmp slt i8 %way, 114
  br i1 %Pivot8, label %LeafBlock, label %NodeBlock

NodeBlock:                                        ; preds = %NodeBlock7
  %Pivot = icmp slt i8 %way, 117
  br i1 %Pivot, label %LeafBlock3, label %LeafBlock5

LeafBlock5:                                       ; preds = %NodeBlock
  %SwitchLeaf6 = icmp eq i8 %way, 117
  br i1 %SwitchLeaf6, label %sw.bb3, label %return

LeafBlock3:                                       ; preds = %NodeBlock
  %SwitchLeaf4 = icmp eq i8 %way, 114
  br i1 %SwitchLeaf4, label %sw.bb1, label %return

LeafBlock:                                        ; preds = %NodeBlock7
  %SwitchLeaf = icmp eq i8 %way, 108
  br i1 %SwitchLeaf, label %sw.bb, label %return

sw.bb:                                            ; preds = %LeafBlock
  %0 = load i32, ptr %p, align 4
  %sub = add nsw i32 %0, -1
  store i32 %sub, ptr %p, align 4
  br label %return

sw.bb1:                                           ; preds = %LeafBlock3
  %1 = load i32, ptr %p, align 4
  %add = add nsw i32 %1, 1
  store i32 %add, ptr %p, align 4
  br label %return

sw.bb3:                                           ; preds = %LeafBlock5
  %y = getelementptr inbounds i8, ptr %p, i64 4
  %2 = load i32, ptr %y, align 4
  %add4 = add nsw i32 %2, 1
  store i32 %add4, ptr %y, align 4
  br label %return

return:                                           ; preds = %LeafBlock5, %LeafBlock3, %LeafBlock, %sw.bb, %sw.bb1, %sw.bb3
  %storemerge = phi i32 [ 1, %sw.bb3 ], [ 1, %sw.bb1 ], [ 1, %sw.bb ], [ 0, %LeafBlock ], [ 0, %LeafBlock3 ], [ 0, %LeafBlock5 ]
  ret i32 %storemerge
}

; Function Attrs: noinline nounwind uwtable
define dso_local i32 @length_seen(ptr noundef %text) #0 {
entry:
  %constexpr = getelementptr inbounds i8, ptr @seen, i64 4
  %0 = load i32, ptr %constexpr, align 4
  %add = add nsw i32 %0, 1
  %constexpr1 = getelementptr inbounds i8, ptr @seen, i64 4
  store i32 %add, ptr %constexpr1, align 4
  %call = call i64 @strlen(ptr noundef nonnull dereferenceable(1) %text) #4
  %conv = trunc i64 %call to i32
  call void @notice(i32 noundef %conv) #5
  %constexpr2 = getelementptr inbounds i8, ptr @seen, i64 4
  %1 = load i32, ptr %constexpr2, align 4
  %add1 = add nsw i32 %1, %conv
  ret i32 %add1
}

; Function Attrs: nounwind willreturn memory(read)
declare i64 @strlen(ptr noundef) #1

declare void @notice(i32 noundef) #2

; Function Attrs: noinline nounwind uwtable
define dso_local i32 @counted(ptr noundef %cells) #0 {
entry:
  store i32 1, ptr @seen, align 16
  %call = call i32 @sum_of(ptr noundef %cells)
  %0 = load i32, ptr @seen, align 16
  %add = add nsw i32 %call, %0
  ret i32 %add
}

; Function Attrs: noinline nounwind uwtable
define internal i32 @sum_of(ptr noundef %cells) #0 {
entry:
  %0 = load i32, ptr %cells, align 4
  %arrayidx1 = getelementptr inbounds i8, ptr %cells, i64 4
  %1 = load i32, ptr %arrayidx1, align 4
  %add = add nsw i32 %0, %1
  ret i32 %add
}

; Function Attrs: noinline nounwind uwtable
define dso_local i32 @ends(ptr noundef %text) #0 {
entry:
  %bytes.sroa.2 = alloca [10 x i8], align 1
  %bytes.sroa.0.0.copyload = load i8, ptr %text, align 1
  %bytes.sroa.2.0.text.sroa_idx = getelementptr inbounds i8, ptr %text, i64 1
  call void @llvm.memcpy.p0.p0.i64(ptr align 1 %bytes.sroa.2, ptr align 1 %bytes.sroa.2.0.text.sroa_idx, i64 10, i1 false)
  %bytes.sroa.21.0.text.sroa_idx = getelementptr inbounds i8, ptr %text, i64 11
  %bytes.sroa.21.0.copyload = load i8, ptr %bytes.sroa.21.0.text.sroa_idx, align 1
  %conv = sext i8 %bytes.sroa.0.0.copyload to i32
  call void @notice(i32 noundef %conv) #5
  %conv2 = sext i8 %bytes.sroa.21.0.copyload to i32
  ret i32 %conv2
}

; Function Attrs: nocallback nofree nounwind willreturn memory(argmem: readwrite)
declare void @llvm.memcpy.p0.p0.i64(ptr noalias nocapture writeonly, ptr noalias nocapture readonly, i64, i1 immarg) #3

attributes #0 = { noinline nounwind uwtable "frame-pointer"="all" "min-legal-vector-width"="0" "no-trapping-math"="true" "stack-protector-buffer-size"="8" "target-cpu"="x86-64" "target-features"="+cmov,+cx8,+fxsr,+mmx,+sse,+sse2,+x87" "tune-cpu"="generic" }
attributes #1 = { nounwind willreturn memory(read) "frame-pointer"="all" "no-trapping-math"="true" "stack-protector-buffer-size"="8" "target-cpu"="x86-64" "target-features"="+cmov,+cx8,+fxsr,+mmx,+sse,+sse2,+x87" "tune-cpu"="generic" }
attributes #2 = { "frame-pointer"="all" "no-trapping-math"="true" "stack-protector-buffer-size"="8" "target-cpu"="x86-64" "target-features"="+cmov,+cx8,+fxsr,+mmx,+sse,+sse2,+x87" "tune-cpu"="generic" }
attributes #3 = { nocallback nofree nounwind willreturn memory(argmem: readwrite) }
attributes #4 = { nounwind willreturn memory(read) }
attributes #5 = { nounwind }

!llvm.module.flags = !{!0, !1, !2, !3, !4}
!llvm.ident = !{!5}

!0 = !{i32 1, !"wchar_size", i32 4}
!1 = !{i32 8, !"PIC Level", i32 2}
!2 = !{i32 7, !"PIE Level", i32 2}
!3 = !{i32 7, !"uwtable", i32 2}
!4 = !{i32 7, !"frame-pointer", i32 2}
!5 = !{!"Debian clang version 19.1.7 (3~deb12u1)"}
!6 = distinct !{!6, !7}
!7 = !{!"llvm.loop.mustprogress"}
