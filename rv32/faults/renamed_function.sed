# to32: an exported function that the header has not
# says: the header has no such function: .*@ch32_i2c_listen_next
s/^define noundef i64 @ch32_i2c_listen_step(/define noundef i64 @ch32_i2c_listen_next(/
