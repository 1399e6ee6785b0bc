; Each multiplication of R2 and R3 from the table at 9000, with C and V set before it.
        MOV   R0,#5
        LDMIA R12!,{R2,R3}
        TEQP  R4,#0
        MLA   R1,R2,R3,R0
        MOV   R0,#5
        LDMIA R12!,{R2,R3}
        TEQP  R4,#0
        MLA   R1,R2,R3,R0
        MOV   R0,#5
        LDMIA R12!,{R2,R3}
        TEQP  R4,#0
        MULS  R1,R2,R3
        MOV   R0,#5
        LDMIA R12!,{R2,R3}
        TEQP  R4,#0
        MULS  R1,R2,R3

        ORG   &9000
        DCD   10,&7
        DCD   2,&80000001
        DCD   0,&1
        DCD   1,&C0000000
