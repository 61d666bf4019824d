# to32: a function of the header is not exported
# says: functions of the header that are not there: ch32_i2c_listen_step
s/^define noundef i64 @ch32_i2c_listen_step(/define internal noundef i64 @ch32_i2c_listen_step(/
