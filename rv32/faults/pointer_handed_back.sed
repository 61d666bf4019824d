# to32: a function says that it hands a pointer back, and hands back a number
# says: of another type than is said before: *ret i8
0,/^define internal noundef i8 /s/^define internal noundef i8 /define internal noundef ptr /
