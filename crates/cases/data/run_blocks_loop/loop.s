        MOV   R12,#&9000
again   LDMIA R12,{R0-R7}
        STMIA R12,{R0-R7}
        B     again
