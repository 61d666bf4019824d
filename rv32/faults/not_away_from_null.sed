# pointers: a null is moved by another step than the kit's
# says: whether a pointer is null is used otherwise: .* = mul i64 .*, 8
/^define noundef i64 @ch32_i2c_listen_step(/,/^}/s/^\(  %r[0-9]* = mul i64 %r[0-9]*, \)4096$/\18/
