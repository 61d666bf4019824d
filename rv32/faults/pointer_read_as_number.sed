# pointers: the 8 bytes of a pointer are read as a number
# says: a pointer at 0, and i64 at 0
0,/^  store ptr %a0, ptr %r1, align 8/s/^  store ptr %a0, ptr %r1, align 8/&\n  %number = load i64, ptr %r1, align 8, !noundef !1/
