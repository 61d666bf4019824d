# pointers: 8 zeros are written over a variable that is a pointer, through a pointer to it
# says: has 4 bytes on the target, and 8 are used at 0
/^define noundef i64 @ch32_i2c_listen_step(/,/^}/s/^start:/&\n  %pointer = alloca ptr, align 8\n  %other = alloca ptr, align 8\n  store ptr %pointer, ptr %other, align 8\n  %name = load ptr, ptr %other, align 8\n  call void @llvm.memset.p0.i64(ptr %name, i8 0, i64 8, i1 false)/
