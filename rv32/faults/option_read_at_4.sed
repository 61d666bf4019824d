# pointers: the pointer of an option is read where the target itself would lay it
# says: a pointer at [48], and ptr at [48]
/^define noundef i64 @ch32_i2c_listen_step(/,/^}/s/^start:/&\n  %option = alloca [16 x i8], align 8\n  %there = getelementptr i8, ptr %option, i64 8\n  store ptr %a0, ptr %there, align 8\n  %wrong = getelementptr i8, ptr %option, i64 4\n  %pointer = load ptr, ptr %wrong, align 4/
