# pointers: more than a byte of what C lends is read through an option
# says: what C lends to ch32_i2c_listen_step as %a0 is used as i16
/^define noundef i64 @ch32_i2c_listen_step(/,/^}/s/^start:/&\n  %option = call { i8, ptr } @"planted"(ptr %a0)\n  %pointer = extractvalue { i8, ptr } %option, 1\n  %word = load i16, ptr %pointer, align 1/
s/^define noundef i64 @ch32_i2c_listen_step(/define internal { i8, ptr } @"planted"(ptr noundef %a0) #0 {\nstart:\n  %r0 = alloca [16 x i8], align 8\n  store i64 1, ptr %r0, align 1\n  %r1 = getelementptr i8, ptr %r0, i64 8\n  store ptr %a0, ptr %r1, align 8\n  %r2 = load { i8, ptr }, ptr %r0, align 8\n  ret { i8, ptr } %r2\n}\n\n&/
