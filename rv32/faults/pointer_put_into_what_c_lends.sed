# pointers: a pointer is kept in what C lends
# says: what C lends to ch32_i2c_listen_step as %a0 is used as ptr
/^define noundef i64 @ch32_i2c_listen_step(/,/^}/s/^start:/&\n  store ptr %a0, ptr %a0, align 8/
