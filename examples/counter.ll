define void @counter() {
  %count = alloca i32, align 4
  %limit = alloca i32, align 4
  store i32 0, ptr %count, align 4
  store i32 10, ptr %limit, align 4
  %now = load i32, ptr %count, align 4
  %most = load i32, ptr %limit, align 4
  store i32 1, ptr %count, align 4
  %next = load i32, ptr %count, align 4
  ret void
}
