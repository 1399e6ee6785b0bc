start    MOV    R0,#3
         SWI    0
         SUBS   PC,R14,#4
