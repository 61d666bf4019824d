# pointers: bytes other than zeros are written over an option
# says: a pointer at 8, and i8 at 8
/^define noundef i64 @ch32_i2c_listen_step(/,/^}/s/^start:/&\n  %option = alloca [16 x i8], align 8\n  %there = getelementptr i8, ptr %option, i64 8\n  store ptr %a0, ptr %there, align 8\n  call void @llvm.memset.p0.i64(ptr %option, i8 -1, i64 16, i1 false)/
