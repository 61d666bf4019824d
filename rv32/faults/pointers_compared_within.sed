# pointers: a function that is not exported asks whether a pointer is null
# says: a pointer is compared: *%null = icmp eq ptr %a0, null
/^define noundef i64 @ch32_i2c_listen_step(/,/^}/s/^start:/&\n  %null = call i1 @"planted"(ptr %a0)/
s/^define noundef i64 @ch32_i2c_listen_step(/define internal i1 @"planted"(ptr noundef %a0) #0 {\nstart:\n  %null = icmp eq ptr %a0, null\n  ret i1 %null\n}\n\n&/
