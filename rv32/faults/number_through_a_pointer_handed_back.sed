# pointers: a called function hands a pointer back, and behind it a pointer is read as a number
# says: %slice: a pointer at 0, and i64 at 0
/^define noundef i64 @ch32_i2c_listen_step(/,/^}/s/^start:/&\n  %slice = alloca [16 x i8], align 8\n  store ptr %a0, ptr %slice, align 8\n  %pointer = call ptr @"planted"(ptr %slice)\n  %number = load i64, ptr %pointer, align 8/
s/^define noundef i64 @ch32_i2c_listen_step(/define internal noundef ptr @"planted"(ptr noundef %a0) #0 {\nstart:\n  ret ptr %a0\n}\n\n&/
