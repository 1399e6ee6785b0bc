; A frame of 1,024 pixels by 312 lines at 16 MHz, and two timers of 65,536 counts.
        MOV   R8,#&3400000
        ADR   R9,frame
        LDMIA R9,{R4-R7}
        STMIA R8,{R4-R7}
        MOV   R12,#&3200000
        MOV   R0,#&FF
        STRB  R0,[R12,#&40]
        STRB  R0,[R12,#&44]
        STRB  R0,[R12,#&48]
        STRB  R0,[R12,#&50]
        STRB  R0,[R12,#&54]
        STRB  R0,[R12,#&58]
        MOV   R3,#&9000
again   ADD   R1,R1,R0
        LDR   R2,[R3]
        STR   R1,[R3]
        SUBS  R0,R0,#1
        B     again
frame   DCD   &807FC000,&A04DC000,&B0400000,&E0000002
