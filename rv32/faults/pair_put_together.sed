# to32: a pair with a pointer is put together
# says: a form that is not known: *%option = insertvalue
/^define noundef i64 @ch32_i2c_listen_step(/,/^}/s/^start:/&\n  %option = insertvalue { i8, ptr } poison, ptr %a0, 1/
