; R1 is 8101. The bytes at 8100 are 11, 22, 33 and 44.
        LDR   R0,[R1]
        LDRB  R0,[R1]
        MOV   R0,#&154
        ADD   R0,R0,#1
        STRB  R0,[R1]
        LDR   R2,[R3,R4,LSL #2]
        ORG   &8100
        DCD   &44332211
