# pointers: a called function hands a pointer back, and more than a byte of what C lends is read through it
# says: what C lends to ch32_i2c_listen_step as %a0 is used as i16
/^define noundef i64 @ch32_i2c_listen_step(/,/^}/s/^start:/&\n  %pointer = call ptr @"planted"(ptr %a0)\n  %word = load i16, ptr %pointer, align 1/
s/^define noundef i64 @ch32_i2c_listen_step(/define internal noundef ptr @"planted"(ptr noundef %a0) #0 {\nstart:\n  ret ptr %a0\n}\n\n&/
