# to32: a copy whose length is not a constant
# says: a form that is not known: *call void @llvm.memmove
0,/memmove.*i64 16, i1 false/s/\(memmove.*\)i64 16, i1 false/\1i64 %length, i1 false/
