# pointers: 8 bytes of a variable that is a pointer are copied
# says: has 4 bytes on the target, and 8 are used at 0
0,/^  %[a-z0-9]* = alloca ptr, align 8/s/^  \(%[a-z0-9]*\) = alloca ptr, align 8/&\n  call void @llvm.memmove.p0.p0.i64(ptr \1, ptr \1, i64 8, i1 false)/
