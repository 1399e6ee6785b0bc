        MOV   R3,#&9000
again   ADD   R1,R1,R0
        LDR   R2,[R3]
        STR   R1,[R3]
        SUBS  R0,R0,#1
        B     again
