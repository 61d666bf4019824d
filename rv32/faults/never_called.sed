# pointers: a function that nobody calls, and of which nobody knows what it is lent
# says: functions that nobody calls: "planted"
s/^define noundef i64 @ch32_i2c_listen_step(/define internal void @"planted"(ptr noundef %a0) #0 {\nstart:\n  %r0 = load i64, ptr %a0, align 8\n  ret void\n}\n\n&/
