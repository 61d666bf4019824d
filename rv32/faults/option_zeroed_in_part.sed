# pointers: zeros are written over the second half of an option's pointer
# says: a pointer at 8, and 4 zeros at 12
/^define noundef i64 @ch32_i2c_listen_step(/,/^}/s/^start:/&\n  %option = alloca [16 x i8], align 8\n  %there = getelementptr i8, ptr %option, i64 8\n  store ptr %a0, ptr %there, align 8\n  %half = getelementptr i8, ptr %option, i64 12\n  call void @llvm.memset.p0.i64(ptr %half, i8 0, i64 4, i1 false)/
