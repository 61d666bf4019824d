# pointers: a pointer is written into an element
# says: a pointer anywhere
/^define noundef i64 @ch32_i2c_listen_step(/,/^}/s/^start:/&\n  call void @"planted"(ptr %a0, i64 16)/
s/^define noundef i64 @ch32_i2c_listen_step(/define internal void @"planted"(ptr noundef %a0, i64 noundef %a1) #0 {\nstart:\n  %r0 = alloca [32 x i8], align 8\n  %r1 = getelementptr inbounds nuw i8, ptr %r0, i64 %a1\n  store ptr %a0, ptr %r1, align 8\n  %r2 = getelementptr i8, ptr %r0, i64 8\n  %r3 = load i64, ptr %r2, align 8\n  ret void\n}\n\n&/
