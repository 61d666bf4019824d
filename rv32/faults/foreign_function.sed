# to32: a function from outside
# says: a form that is not known: declare void @puts
s/^declare void @llvm.trap.*/&\ndeclare void @puts(ptr) #2/
