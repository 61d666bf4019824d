# pointers: whether a pointer is null is added to a number
# says: whether a pointer is null is used otherwise: *%sum = add
/^define noundef i64 @ch32_i2c_listen_step(/,/^}/s/^  \(%r[0-9]*\) = zext i1 .* to i64$/&\n  %sum = add i64 \1, 1/
