# pointers: half of a pointer is copied
# says: a pointer at 0, and 4 bytes copied at 0
0,/^  store ptr %a0, ptr %r1, align 8/s/^  store ptr %a0, ptr %r1, align 8/&\n  %copy = alloca i32, align 4\n  call void @llvm.memmove.p0.p0.i64(ptr %copy, ptr %r1, i64 4, i1 false)/
