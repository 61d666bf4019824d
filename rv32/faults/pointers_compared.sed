# to32: two pointers are compared
# says: a form that is not known: *%same = icmp eq ptr
0,/^  %r0 = alloca/s/^  %r0 = alloca.*/&\n  %same = icmp eq ptr %r0, %r0/
