# pointers: a constant is written
# says: the constant @static.90 is written
s/^source_filename.*/&\n@static.90 = private unnamed_addr constant [3 x i8] c"bus", align 1/
/^define noundef i64 @ch32_i2c_listen_step(/,/^}/s/^start:/&\n  %name = alloca ptr, align 8\n  store ptr @static.90, ptr %name, align 8\n  %pointer = load ptr, ptr %name, align 8\n  store i8 0, ptr %pointer, align 1/
