# to32: a length is cut to 16 bits where it was not looked at
# says: 64 bits are cut to 16 in planted
/^define noundef i64 @ch32_i2c_listen_step(/,/^}/s/^start:/&\n  %cut = call i16 @"planted"(i64 32)/
s/^define noundef i64 @ch32_i2c_listen_step(/define internal i16 @"planted"(i64 noundef %a0) #0 {\nstart:\n  %cut = trunc i64 %a0 to i16\n  ret i16 %cut\n}\n\n&/
