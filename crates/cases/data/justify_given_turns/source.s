; Fills a buffer that a driver has given, by its count, and then the one behind that ends a word too late.
start    SUBS   R8,R8,#1                ; 1 to 4 words, less one
         BMI    out
next     STR    R0,[R10],#4
         SUBS   R8,R8,#1
turn     BPL    next
past     STR    R0,[R10]
out      SUBS   PC,R14,#4
