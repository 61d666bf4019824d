# pointers: an option of a pointer is read as one of a number
# says: a pointer at 8, and i64 at 8
/^define noundef i64 @ch32_i2c_listen_step(/,/^}/s/^start:/&\n  %option = alloca [16 x i8], align 8\n  %there = getelementptr i8, ptr %option, i64 8\n  store ptr %a0, ptr %there, align 8\n  %numbers = load { i8, i64 }, ptr %option, align 8/
