; Timer 0's tick counts, and calls back each hundredth one.
ioc     EQU     &3200000
irqrqa  EQU     &14
t0bit   EQU     1<<5
hz      EQU     100
        ORG     &18
vector  B       tick
        ORG     &8000
tick    SUB     R14,R14,#4
        STMFD   R13!,{R0-R2,R14}
        MOV     R0,#ioc
        MOV     R1,#t0bit
        STRB    R1,[R0,#irqrqa]
        LDR     R1,count
        ADDS    R1,R1,#1
        CMP     R1,#hz
        MOVHS   R1,#0
        STR     R1,count
        BHS     call
        LDMFD   R13!,{R0-R2,PC}^
call    LDR     R2,=flag
        MVN     R0,#0
        STR     R0,[R2]
        LDMFD   R13!,{R0-R2,PC}^
        LTORG
count   DCD     0
flag    DCD     0
        END
