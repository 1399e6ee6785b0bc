; The base is stored as it was where it is the lowest register, and else as it becomes.
        STMIA R1!,{R1,R2}
        MOV   R1,#&8100
        STMIA R1!,{R0,R1}
