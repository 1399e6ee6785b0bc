; A byte of the keyboard's serial link, with the acknowledge that its protocol wants.
ioc     *       &3200000
kart    *       4
irqb    *       &24
rxbit   *       2_10000000
rst1    *       &FE
ack     *       2_00111111 :AND: :NOT: 0
fast    *       1

        ORG     &8000
key     STMFD   R13!,{R0-R3,R14}
        MOV     R0,#ioc
        LDRB    R1,[R0,#irqb]
        TST     R1,#rxbit
        LDMEQFD R13!,{R0-R3,PC}^
        LDRB    R2,[R0,#kart]
        CMP     R2,#rst1
        MOVEQ   R3,#ack
        [       fast = 1
        EORNE   R3,R2,#&F0
        |
        LDRNE   R3,=&12345678
        ]
        STRB    R3,[R0,#kart]
        LDR     R1,=last
        STRB    R2,[R1]
        LDMFD   R13!,{R0-R3,PC}^
        LTORG
last    DCD     0
        END
