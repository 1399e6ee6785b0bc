; Lets A0 through IOC, and returns.
start    MOV    R0,#&3200000
         MOV    R1,#&10000
         STR    R1,[R0,#&18]
         MOVS   PC,R14
