# pointers: zeros are written over half of a pointer
# says: a pointer at 0, and 4 zeros at 0
0,/^  store ptr %a0, ptr %r0, align 8/s/^  store ptr %a0, ptr %r0, align 8/&\n  call void @llvm.memset.p0.i64(ptr %r0, i8 0, i64 4, i1 false)/
