start    MOV    R0,#3
again    SUBSS  R0,R0,#1
turn     BNE    agan
mask     MOV    R0,#257
mask     MOV    PC,R14
         SUBS   PC,R14,#4
