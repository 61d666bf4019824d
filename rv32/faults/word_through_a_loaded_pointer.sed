# pointers: more than a byte is read through a pointer that was loaded
# says: what C lends to ch32_i2c_listen_step as %a0 is used as i16
/^define noundef i64 @ch32_i2c_listen_step(/,/^}/s/^start:/&\n  %name = alloca ptr, align 8\n  store ptr %a0, ptr %name, align 8\n  %pointer = load ptr, ptr %name, align 8\n  %word = load i16, ptr %pointer, align 1/
