# to32: a length that is used otherwise than by storing it
# says: a length that is used otherwise: *%sum = add
/^define noundef i64 @ch32_i2c_listen_step(/,/^}/s/  %r[0-9]* = call/  %sum = add nuw i64 %a1, 1\n&/
