# pointers: a function calls itself
# says: recursion: "planted"
/^define noundef i64 @ch32_i2c_listen_step(/,/^}/s/^start:/&\n  call void @"planted"(ptr %a0)/
s/^define noundef i64 @ch32_i2c_listen_step(/define internal void @"planted"(ptr noundef %a0) #0 {\nstart:\n  call void @"planted"(ptr %a0)\n  ret void\n}\n\n&/
