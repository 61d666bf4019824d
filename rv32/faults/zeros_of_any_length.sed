# to32: zeros whose number is not a constant
# says: a form that is not known: *call void @llvm.memset
0,/memset.*i64 16, i1 false/s/\(memset.*\)i64 16, i1 false/\1i64 %length, i1 false/
