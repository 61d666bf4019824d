# to32: 4 zeros are written over a variable that is a pointer
# says: zeros over a part of a pointer
/^define noundef i64 @ch32_i2c_listen_step(/,/^}/s/^start:/&\n  %pointer = alloca ptr, align 8\n  call void @llvm.memset.p0.i64(ptr %pointer, i8 0, i64 4, i1 false)/
