; R1 is IRQ A's status, and IRQ A's mask is 8 after it.
        LDR   R0,[R1]
        LDRB  R0,[R1,#1]
        STRB  R2,[R1,#8]
        LDR   R3,[R1,#8]
        ADD   R1,R1,#&70
        LDR   R0,[R1]
