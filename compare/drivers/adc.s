; Four samples of a converter on a card: constants below their use, and a table.
first   *       base + step * 2
step    *       1 << 14
base    *       &3340000
samples *       4
        ORG     &8000
adc     STMFD   R13!,{R0-R3,R14}
        MOV     R1,#samples
        LDR     R2,=result
        MOV     R3,#first :AND: &FF00000
        ORR     R3,R3,#first :AND: &FFFFF
        MOV     R14,#:NOT: 0
again   LDRB    R0,[R3]
        CMP     R0,R14,LSR #24
        STRNEB  R0,[R2],#1
        SUBS    R1,R1,#1
        BNE     again
        LDMFD   R13!,{R0-R3,PC}^
        LTORG
result  DCD     0
        END
