define void @refused() {
  %p = alloca i32, align 4
  store i32 1, ptr %q, align 4
  ret void
}
