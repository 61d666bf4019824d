# to32: a call through a pointer
# says: a form that is not known: .* = call i64 %function(
0,/= call i64 @"[^"]*"(/s/= call i64 @"[^"]*"(/= call i64 %function(/
