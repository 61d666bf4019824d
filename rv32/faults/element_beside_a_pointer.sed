# pointers: an element of a variable is read, and a pointer lies in it
# says: a pointer at 0, and i8 anywhere
/^define noundef i64 @ch32_i2c_listen_step(/,/^}/s/^start:/&\n  call void @"planted"(ptr %a0, i64 7)/
s/^define noundef i64 @ch32_i2c_listen_step(/define internal void @"planted"(ptr noundef %a0, i64 noundef %a1) #0 {\nstart:\n  %r0 = alloca [16 x i8], align 8\n  store ptr %a0, ptr %r0, align 8\n  %r1 = getelementptr i8, ptr %r0, i64 %a1\n  %r2 = load i8, ptr %r1, align 1\n  ret void\n}\n\n&/
