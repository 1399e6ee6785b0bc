; The next byte to the printer's latch, with a strobe.
latch   *       &3350000
data    *       &10
ctrl    *       &18
strobe  *       1:SHL:4
busy    *       1:SHL:0
idle    *       strobe :EOR: &FF
limit   *       4096
tries   *       (limit + limit - 1) / 64 :MOD: 32
        ORG     &8000
print   STMFD   R13!,{R0-R4,R14}
        LDR     R0,=latch
        MOV     R2,#tries
wait    LDRB    R1,[R0,#ctrl]
        TST     R1,#busy
        BEQ     ready
        SUBS    R2,R2,#1
        BPL     wait
        B       leave
ready   LDR     R3,=limit * 7 + 3
        LDR     R4,=-2
        LDRB    R1,[R3],#1
        STRB    R1,[R0,#data]
        MOV     R1,#strobe
        STRB    R1,[R0,#ctrl]
        NOP
        NOP
        MOV     R1,#idle
        STRB    R1,[R0,#ctrl]
        AND     R3,R3,#&FFFFFF00
        ADD     R3,R3,#-4
leave   LDMFD   R13!,{R0-R4,PC}^
        END
