# to32: a pointer is made a number
# says: a form that is not known: *%number = ptrtoint
0,/^  %r0 = alloca/s/^  %r0 = alloca.*/&\n  %number = ptrtoint ptr %r0 to i64/
