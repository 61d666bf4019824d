# pointers: a pointer is moved by a length, and not away from null
# says: pointer arithmetic: .* = getelementptr i8, ptr %a0, i64 %a1
/^define noundef i64 @ch32_i2c_listen_step(/,/^}/s/^\(  %r[0-9]* = getelementptr i8, ptr %a0, i64 \)%r[0-9]*$/\1%a1/
