# to32: C is handed a pointer
# says: a form that is not known: define noundef ptr @ch32_i2c_listen_step
s/^define noundef i64 @ch32_i2c_listen_step(/define noundef ptr @ch32_i2c_listen_step(/
