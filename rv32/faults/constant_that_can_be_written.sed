# to32: a variable in the place of a constant
# says: a form that is not known: @static.90 = private unnamed_addr global
s/^source_filename.*/&\n@static.90 = private unnamed_addr global [3 x i8] c"bus", align 1/
