# to32: an attribute that is not known
# says: a form that is not known: attributes #0
s/^attributes #0 = { \([a-z ]*nounwind\)/attributes #0 = { \1 "frame-pointer"="all"/
