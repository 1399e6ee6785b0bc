; A bit of the clock's bus on IOC's control register: lines down and up again.
ctl     *       &3200000
sda     *       1
scl     *       2
lines   *       sda :OR: scl
keep    *       &FF :EOR: lines
        ORG     &8000
bit     STMFD   R13!,{R0,R1,R14}
        MOV     R1,#ctl
        LDRB    R0,shadow
        AND     R0,R0,#keep
        ORRCS   R0,R0,#sda
        STRB    R0,[R1]
        ORR     R0,R0,#scl
        STRB    R0,[R1]
        BL      pause
        BIC     R0,R0,#scl
        STRB    R0,[R1]
        BL      pause
        [       keep = 252
        [       lines <> 3
        SWI     1
        |
        STRB    R0,shadow
        ]
        ]
        LDMFD   R13!,{R0,R1,PC}
pause   MOV     R14,R14
        MOVS    PC,R14
shadow  DCD     keep
        END
