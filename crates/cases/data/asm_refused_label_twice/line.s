a
a