start    MOV    R4,R14
again    BL     count
         BNE    again
         SUBS   PC,R4,#4
count    SUBS   R0,R0,#1
         MOV    PC,R14
