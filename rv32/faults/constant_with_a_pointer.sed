# to32: a constant holds a pointer
# says: a form that is not known: @static.90 = private constant <{ ptr
s/^source_filename.*/&\n@static.90 = private constant <{ ptr, [8 x i8] }> <{ ptr @static.91, [8 x i8] c"\\03\\00\\00\\00\\00\\00\\00\\00" }>, align 8\n@static.91 = private unnamed_addr constant [3 x i8] c"bus", align 1/
