# to32: pointer arithmetic of another kind
# says: a form that is not known: .* = getelementptr i8, ptr %r[0-9]*, i64 -8
0,/= getelementptr i8, ptr %r0, i64 8/s/i64 8$/i64 -8/
