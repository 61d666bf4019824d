# pointers: a function that takes a number is called with a pointer
# says: "planted": called with other types than it has: i64 ptr
/^define noundef i64 @ch32_i2c_listen_step(/,/^}/s/^start:/&\n  %number = call i64 @"planted"(ptr %a0)/
s/^define noundef i64 @ch32_i2c_listen_step(/define internal i64 @"planted"(i64 noundef %a0) #0 {\nstart:\n  ret i64 %a0\n}\n\n&/
