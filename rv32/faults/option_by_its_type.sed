# to32: the place of an option's pointer is left to the target's layout
# says: a form that is not known: *%there = getelementptr { i8, ptr }
/^define noundef i64 @ch32_i2c_listen_step(/,/^}/s/^start:/&\n  %option = alloca [16 x i8], align 8\n  %there = getelementptr { i8, ptr }, ptr %option, i32 0, i32 1/
