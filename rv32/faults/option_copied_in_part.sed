# pointers: an option is copied without the end of its pointer
# says: a pointer at 8, and 12 bytes copied at 0
/^define noundef i64 @ch32_i2c_listen_step(/,/^}/s/^start:/&\n  %option = alloca [16 x i8], align 8\n  %there = getelementptr i8, ptr %option, i64 8\n  store ptr %a0, ptr %there, align 8\n  %copy = alloca [16 x i8], align 8\n  call void @llvm.memmove.p0.p0.i64(ptr %copy, ptr %option, i64 12, i1 false)/
