# pointers: a called function hands an option back, and behind its pointer a pointer is read as a number
# says: %slice: a pointer at 0, and i64 at 0
/^define noundef i64 @ch32_i2c_listen_step(/,/^}/s/^start:/&\n  %slice = alloca [16 x i8], align 8\n  store ptr %a0, ptr %slice, align 8\n  %option = call { i8, ptr } @"planted"(ptr %slice)\n  %pointer = extractvalue { i8, ptr } %option, 1\n  %number = load i64, ptr %pointer, align 8/
s/^define noundef i64 @ch32_i2c_listen_step(/define internal { i8, ptr } @"planted"(ptr noundef %a0) #0 {\nstart:\n  %r0 = alloca [16 x i8], align 8\n  store i64 1, ptr %r0, align 1\n  %r1 = getelementptr i8, ptr %r0, i64 8\n  store ptr %a0, ptr %r1, align 8\n  %r2 = load { i8, ptr }, ptr %r0, align 8\n  ret { i8, ptr } %r2\n}\n\n&/
