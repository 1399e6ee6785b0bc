; A word that writes R15, but never, and one that does.
start    ADDNV  PC,PC,R0,LSL #2
         ADD    PC,PC,R0,LSL #2
