# to32: a function takes a pair with a pointer
# says: a form that is not known: define internal void @"planted"({ i8, ptr }
s/^define noundef i64 @ch32_i2c_listen_step(/define internal void @"planted"({ i8, ptr } %a0) #0 {\nstart:\n  ret void\n}\n\n&/
