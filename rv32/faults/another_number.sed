# same_code: the text says something else than what was compiled
# says: differ
0,/= icmp ne i64 %[a-z0-9]*, 32/s/\(= icmp ne i64 %[a-z0-9]*\), 32/\1, 33/
