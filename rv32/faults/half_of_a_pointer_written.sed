# pointers: a number is written over half of a pointer
# says: a pointer at 0, and i32 at 4
0,/^  store ptr %a0, ptr %r1, align 8/s/^  store ptr %a0, ptr %r1, align 8/&\n  %high = getelementptr i8, ptr %r1, i64 4\n  store i32 0, ptr %high, align 4/
