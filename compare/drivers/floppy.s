; FIQ's code of the 1772: a byte each time, and the end.
fdcbase *       &3310000
fdcdata *       &C
fiqst   *       &30
byteok  *       2_00000001
endok   *       2_00000010
ioc     RN      11
fdc     RN      12
to      RN      10
left    RN      8
        ORG     &1C
fiq     LDRB    R9,[ioc,#fiqst]
        TST     R9,#byteok
        BEQ     none
        LDRB    R9,[fdc,#fdcdata]
        STRB    R9,[to],#1
        SUBS    left,left,#1
        SUBNES  PC,R14,#4
        MOV     R9,#endok
        STRB    R9,[ioc,#fiqst + 8]
        SUBS    PC,R14,#4
none    TST     R9,#endok
        SUBEQS  PC,R14,#4
        LDRB    R9,[fdc]
        MVN     to,#0
        MOV     left,#-1
        SUBS    PC,R14,#4
        END
