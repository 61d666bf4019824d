# to32: C is handed a pair with a pointer
# says: a form that is not known: define { i8, ptr } @ch32_i2c_listen_step
s/^define noundef i64 @ch32_i2c_listen_step(/define { i8, ptr } @ch32_i2c_listen_step(/
