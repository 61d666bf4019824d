# pointers: a function writes zeros, and is called for half of a pointer
# says: a pointer at 0, and 4 zeros at 4
/^define noundef i64 @ch32_i2c_listen_step(/,/^}/s/^start:/&\n  %slice = alloca [16 x i8], align 8\n  store ptr %a0, ptr %slice, align 8\n  %half = getelementptr i8, ptr %slice, i64 4\n  call void @"planted"(ptr %half)/
s/^define noundef i64 @ch32_i2c_listen_step(/define internal void @"planted"(ptr noundef %a0) #0 {\nstart:\n  call void @llvm.memset.p0.i64(ptr %a0, i8 0, i64 4, i1 false)\n  ret void\n}\n\n&/
