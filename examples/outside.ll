; ModuleID = '<stdin>'
source_filename = "examples/outside.c"
target datalayout = "e-m:e-p270:32:32-p271:32:32-p272:64:64-i64:64-i128:128-f80:128-n8:16:32:64-S128"
target triple = "x86_64-pc-linux-gnu"

%struct.node = type { i32, ptr }

; Function Attrs: noinline nounwind uwtable
define dso_local i32 @at(ptr noundef %table, i32 noundef %i) #0 {
entry:
  %idxprom = sext i32 %i to i64
  %arrayidx = getelementptr inbounds i32, ptr %table, i64 %idxprom
  %0 = load i32, ptr %arrayidx, align 4
  ret i32 %0
}

; Function Attrs: noinline nounwind uwtable
define dso_local i32 @second(ptr noundef %n) #0 {
entry:
  %next = getelementptr inbounds i8, ptr %n, i64 8
  %0 = load ptr, ptr %next, align 8
  %1 = load i32, ptr %0, align 8
  ret i32 %1
}

; Function Attrs: noinline nounwind uwtable
define dso_local void @append(ptr noundef %n, ptr noundef %next) #0 {
entry:
  %next1 = getelementptr inbounds i8, ptr %n, i64 8
  store ptr %next, ptr %next1, align 8
  ret void
}

; Function Attrs: noinline nounwind uwtable
define dso_local ptr @skip(ptr noundef %text) #0 {
entry:
  %add.ptr = getelementptr inbounds i8, ptr %text, i64 1
  ret ptr %add.ptr
}

; Function Attrs: noinline nounwind uwtable
define dso_local i32 @value_of(ptr noundef %p) #0 {
entry:
  %tobool.not = icmp eq ptr %p, null
  br i1 %tobool.not, label %cond.end, label %cond.true

cond.true:                                        ; preds = %entry
  %0 = load i32, ptr %p, align 4
  br label %cond.end

cond.end:                                         ; preds = %entry, %cond.true
  %cond = phi i32 [ %0, %cond.true ], [ 0, %entry ]
  ret i32 %cond
}

; Function Attrs: noinline nounwind uwtable
define dso_local i32 @total(ptr noundef %from, ptr noundef %end) #0 {
entry:
  br label %while.cond

while.cond:                                       ; preds = %while.body, %entry
  %from.addr.0 = phi ptr [ %from, %entry ], [ %incdec.ptr, %while.body ]
  %storemerge = phi i32 [ 0, %entry ], [ %add, %while.body ]
  %cmp = icmp ult ptr %from.addr.0, %end
  br i1 %cmp, label %while.body, label %while.end

while.body:                                       ; preds = %while.cond
  %incdec.ptr = getelementptr inbounds i8, ptr %from.addr.0, i64 4
  %0 = load i32, ptr %from.addr.0, align 4
  %add = add nsw i32 %storemerge, %0
  br label %while.cond, !llvm.loop !6

while.end:                                        ; preds = %while.cond
  ret i32 %storemerge
}

; Function Attrs: noinline nounwind uwtable
define dso_local i64 @distance(ptr noundef %from, ptr noundef %to) #0 {
entry:
  %sub.ptr.lhs.cast = ptrtoint ptr %to to i64
  %sub.ptr.rhs.cast = ptrtoint ptr %from to i64
  %sub.ptr.sub = sub i64 %sub.ptr.lhs.cast, %sub.ptr.rhs.cast
  ret i64 %sub.ptr.sub
}

; Function Attrs: noinline nounwind uwtable
define dso_local i32 @mean(i32 noundef %a, i32 noundef %b, i32 noundef %n) #0 {
entry:
  %add = add nsw i32 %a, %b
  %div = sdiv i32 %add, %n
  ret i32 %div
}

; Function Attrs: noinline nounwind uwtable
define dso_local i32 @scaled(double noundef %x) #0 {
entry:
  %mul = fmul double %x, 1.000000e+02
  %conv = fptosi double %mul to i32
  ret i32 %conv
}

; Function Attrs: noinline nounwind uwtable
define dso_local i32 @cleared() #0 {
entry:
  %cells = alloca [32 x i32], align 16
  call void @llvm.memset.p0.i64(ptr noundef nonnull align 16 dereferenceable(128) %cells, i8 0, i64 128, i1 false)
  %call = call i32 @use(ptr noundef nonnull %cells) #9
  ret i32 %call
}

; Function Attrs: nocallback nofree nounwind willreturn memory(argmem: write)
declare void @llvm.memset.p0.i64(ptr nocapture writeonly, i8, i64, i1 immarg) #1

declare i32 @use(ptr noundef) #2

; Function Attrs: noinline nounwind uwtable
define dso_local void @copy(ptr noundef %to, ptr noundef %from, i64 noundef %n) #0 {
entry:
  call void @llvm.memcpy.p0.p0.i64(ptr align 1 %to, ptr align 1 %from, i64 %n, i1 false)
  ret void
}

; Function Attrs: nocallback nofree nounwind willreturn memory(argmem: readwrite)
declare void @llvm.memcpy.p0.p0.i64(ptr noalias nocapture writeonly, ptr noalias nocapture readonly, i64, i1 immarg) #3

; Function Attrs: noinline nounwind uwtable
define dso_local i32 @positive(i32 noundef %n) #0 {
entry:
  %0 = call i32 @llvm.abs.i32(i32 %n, i1 true)
  ret i32 %0
}

; Function Attrs: nocallback nofree nosync nounwind speculatable willreturn memory(none)
declare i32 @llvm.abs.i32(i32, i1 immarg) #4

; Function Attrs: noinline nounwind uwtable
define dso_local i32 @turned(i32 noundef %n) #0 {
entry:
  %or = call i32 @llvm.fshl.i32(i32 %n, i32 %n, i32 7)
  ret i32 %or
}

; Function Attrs: noinline nounwind uwtable
define dso_local i32 @is_blank(i8 noundef zeroext %c) #0 {
entry:
  %call = call ptr @__ctype_b_loc() #10
  %0 = load ptr, ptr %call, align 8
  %idxprom = zext i8 %c to i64
  %arrayidx = getelementptr inbounds i16, ptr %0, i64 %idxprom
  %1 = load i16, ptr %arrayidx, align 2
  %2 = lshr i16 %1, 13
  %.lobit = and i16 %2, 1
  %conv2 = zext nneg i16 %.lobit to i32
  ret i32 %conv2
}

; Function Attrs: nounwind willreturn memory(none)
declare ptr @__ctype_b_loc() #5

; Function Attrs: noinline nounwind uwtable
define dso_local i32 @fresh() #0 {
entry:
  %call = call noalias dereferenceable_or_null(4) ptr @malloc(i64 noundef 4) #11
  %call1 = call i32 @use(ptr noundef %call) #9
  ret i32 %call1
}

; Function Attrs: nounwind allocsize(0)
declare noalias ptr @malloc(i64 noundef) #6

; Function Attrs: noinline nounwind uwtable
define dso_local i32 @applied(ptr noundef %f, i32 noundef %x) #0 {
entry:
  %call = call i32 %f(i32 noundef %x) #9
  ret i32 %call
}

; Function Attrs: noinline nounwind uwtable
define dso_local i32 @boxed(i32 noundef %value) #0 {
entry:
  %n = alloca %struct.node, align 8
  store i32 %value, ptr %n, align 8
  %call = call i32 @use(ptr noundef nonnull %n) #9
  ret i32 %call
}

; Function Attrs: noinline nounwind uwtable
define dso_local i32 @rest(i32 noundef %n) #0 {
entry:
  %0 = zext i32 %n to i64
  %vla = alloca i32, i64 %0, align 16
  %call = call i32 @use(ptr noundef nonnull %vla) #9
  ret i32 %call
}

; Function Attrs: nocallback nofree nosync nounwind willreturn
declare ptr @llvm.stacksave.p0() #7

; Function Attrs: nocallback nofree nosync nounwind willreturn
declare void @llvm.stackrestore.p0(ptr) #7

; Function Attrs: noinline nounwind uwtable
define dso_local void @sorted(ptr noundef %cells, i64 noundef %n) #0 {
entry:
  call void @qsort(ptr noundef %cells, i64 noundef %n, i64 noundef 4, ptr noundef nonnull @compare) #9
  ret void
}

declare void @qsort(ptr noundef, i64 noundef, i64 noundef, ptr noundef) #2

declare i32 @compare(ptr noundef, ptr noundef) #2

; Function Attrs: noinline nounwind uwtable
define dso_local i32 @ended(ptr noundef %text) #0 {
entry:
  %end = alloca ptr, align 8
  %call = call i64 @strtol(ptr noundef %text, ptr noundef nonnull %end, i32 noundef 10) #9
  %conv = trunc i64 %call to i32
  %0 = load ptr, ptr %end, align 8
  %1 = load i8, ptr %0, align 1
  %conv1 = sext i8 %1 to i32
  %add = add nsw i32 %conv, %conv1
  ret i32 %add
}

; Function Attrs: nounwind
declare i64 @strtol(ptr noundef, ptr noundef, i32 noundef) #8

; Function Attrs: noinline nounwind uwtable
define dso_local i32 @now() #0 {
entry:
  %call = call i32 @use(ptr noundef null) #9
  ret i32 %call
}

; Function Attrs: noinline nounwind uwtable
define dso_local i32 @unset(i32 noundef %wanted) #0 {
entry:
  %wanted.addr = alloca i32, align 4
  store i32 %wanted, ptr %wanted.addr, align 4
  %tobool.not = icmp eq i32 %wanted, 0
  br i1 %tobool.not, label %if.end, label %if.then

if.then:                                          ; preds = %entry
  %call = call i32 @use(ptr noundef nonnull %wanted.addr) #9
  br label %if.end

if.end:                                           ; preds = %if.then, %entry
  %value.0 = phi i32 [ undef, %entry ], [ %call, %if.then ]
  ret i32 %value.0
}

; Function Attrs: noinline nounwind uwtable
define dso_local i32 @large() #0 {
entry:
  %cells = alloca [20000 x i32], align 16
  %call = call i32 @use(ptr noundef nonnull %cells) #9
  ret i32 %call
}

; Function Attrs: noinline nounwind uwtable
define dso_local i32 @knot(i32 noundef %n) #0 {
entry:
  %n.addr = alloca i32, align 4
  store i32 %n, ptr %n.addr, align 4
  %and = and i32 %n, 1
  %tobool.not = icmp eq i32 %and, 0
  br i1 %tobool.not, label %even, label %odd

even:                                             ; preds = %entry, %odd
  %call = call i32 @use(ptr noundef nonnull %n.addr) #9
  store i32 %call, ptr %n.addr, align 4
  %and1 = and i32 %call, 2
  %tobool2.not = icmp eq i32 %and1, 0
  br i1 %tobool2.not, label %odd, label %if.then3

if.then3:                                         ; preds = %even
  %0 = load i32, ptr %n.addr, align 4
  ret i32 %0

odd:                                              ; preds = %even, %entry
  %1 = load i32, ptr %n.addr, align 4
  %add = add nsw i32 %1, 3
  store i32 %add, ptr %n.addr, align 4
  br label %even
}

; Function Attrs: nocallback nofree nosync nounwind speculatable willreturn memory(none)
declare i32 @llvm.fshl.i32(i32, i32, i32) #4

attributes #0 = { noinline nounwind uwtable "frame-pointer"="all" "min-legal-vector-width"="0" "no-trapping-math"="true" "stack-protector-buffer-size"="8" "target-cpu"="x86-64" "target-features"="+cmov,+cx8,+fxsr,+mmx,+sse,+sse2,+x87" "tune-cpu"="generic" }
attributes #1 = { nocallback nofree nounwind willreturn memory(argmem: write) }
attributes #2 = { "frame-pointer"="all" "no-trapping-math"="true" "stack-protector-buffer-size"="8" "target-cpu"="x86-64" "target-features"="+cmov,+cx8,+fxsr,+mmx,+sse,+sse2,+x87" "tune-cpu"="generic" }
attributes #3 = { nocallback nofree nounwind willreturn memory(argmem: readwrite) }
attributes #4 = { nocallback nofree nosync nounwind speculatable willreturn memory(none) }
attributes #5 = { nounwind willreturn memory(none) "frame-pointer"="all" "no-trapping-math"="true" "stack-protector-buffer-size"="8" "target-cpu"="x86-64" "target-features"="+cmov,+cx8,+fxsr,+mmx,+sse,+sse2,+x87" "tune-cpu"="generic" }
attributes #6 = { nounwind allocsize(0) "frame-pointer"="all" "no-trapping-math"="true" "stack-protector-buffer-size"="8" "target-cpu"="x86-64" "target-features"="+cmov,+cx8,+fxsr,+mmx,+sse,+sse2,+x87" "tune-cpu"="generic" }
attributes #7 = { nocallback nofree nosync nounwind willreturn }
attributes #8 = { nounwind "frame-pointer"="all" "no-trapping-math"="true" "stack-protector-buffer-size"="8" "target-cpu"="x86-64" "target-features"="+cmov,+cx8,+fxsr,+mmx,+sse,+sse2,+x87" "tune-cpu"="generic" }
attributes #9 = { nounwind }
attributes #10 = { nounwind willreturn memory(none) }
attributes #11 = { nounwind allocsize(0) }

!llvm.module.flags = !{!0, !1, !2, !3, !4}
!llvm.ident = !{!5}

!0 = !{i32 1, !"wchar_size", i32 4}
!1 = !{i32 8, !"PIC Level", i32 2}
!2 = !{i32 7, !"PIE Level", i32 2}
!3 = !{i32 7, !"uwtable", i32 2}
!4 = !{i32 7, !"frame-pointer", i32 2}
!5 = !{!"Debian clang version 19.1.7 (3~deb12u1)"}
!6 = distinct !{!6, !7}
!7 = !{!"llvm.loop.mustprogress"}
