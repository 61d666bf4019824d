# to32: a length is cut to 32 bits
# says: 64 bits are cut to 32 in planted
/^define noundef i64 @ch32_i2c_listen_step(/,/^}/s/^start:/&\n  %cut = call i32 @"planted"(i64 32)/
s/^define noundef i64 @ch32_i2c_listen_step(/define internal i32 @"planted"(i64 noundef %a0) #0 {\nstart:\n  %cut = trunc i64 %a0 to i32\n  ret i32 %cut\n}\n\n&/
