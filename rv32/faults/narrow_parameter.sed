# to32: an answer of 8 bits
# says: the header has no such function: .*i8 noundef %a2
/^define noundef i64 @ch32_i2c_listen_step(/s/i16 noundef %a2/i8 noundef %a2/
