# to32: a number in a pair is taken for a pointer
# says: of another type than is said before
0,/= load { i8, i[0-9]* }, ptr /s/= load { i8, i[0-9]* }, ptr /= load { i8, ptr }, ptr /
