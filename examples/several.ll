; Several functions: what a call may read or write decides whether it is an access, and of which kind.
@counter = global i32 0, align 4

declare i32 @look(ptr nocapture) memory(argmem: read)
declare i32 @pure(i32) memory(none)
declare void @log(i32)

define i32 @both(i1 %c, ptr %p) {
  br i1 %c, label %yes, label %no

yes:
  store i32 1, ptr @counter, align 4
  br label %end

no:
  call void @log(i32 2)
  br label %end

end:
  %seen = call i32 @look(ptr %p)
  %same = call i32 @pure(i32 %seen)
  ret i32 %same
}

define void @copy(ptr %to, ptr %from) {
  call void @llvm.memcpy.p0.p0.i64(ptr %to, ptr %from, i64 16, i1 false)
  %first = load i8, ptr %to, align 1
  ret void
}
