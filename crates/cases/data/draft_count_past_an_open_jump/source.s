start    CMP    R1,#0
jump     MOVNE  PC,R5
         MOV    R0,#3
l        SUBS   R0,R0,#1
turn     BNE    l
         SUBS   PC,R14,#4
