# pointers: a pointer is read from a constant
# says: a pointer is read from the constant @static.90
s/^source_filename.*/&\n@static.90 = private unnamed_addr constant [8 x i8] zeroinitializer, align 8/
/^define noundef i64 @ch32_i2c_listen_step(/,/^}/s/^start:/&\n  %name = alloca ptr, align 8\n  store ptr @static.90, ptr %name, align 8\n  %pointer = load ptr, ptr %name, align 8\n  %null = load ptr, ptr %pointer, align 8/
