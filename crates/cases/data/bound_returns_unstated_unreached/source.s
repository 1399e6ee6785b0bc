start    SUBS   PC,R14,#4
         MOV    PC,R5
