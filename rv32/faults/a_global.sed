# to32: a variable outside the functions
# says: a form that is not known: @count
s/^source_filename.*/&\n@count = internal global i64 0/
