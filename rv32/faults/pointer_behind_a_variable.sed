# pointers: a pointer leads behind its variable
# says: a pointer leads behind "\?ch32_i2c_listen_step"\? %option
/^define noundef i64 @ch32_i2c_listen_step(/,/^}/s/^start:/&\n  %option = alloca [16 x i8], align 8\n  %behind = getelementptr i8, ptr %option, i64 24/
