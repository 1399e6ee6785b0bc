; Fills the sound DMA's next buffer from a table.
memc    *       &3600000
sstart  *       memc :OR: &80000
ssend   *       memc :OR: &A0000
length  *       16 * 16
        ^       &100
left    #       length
right   #       length
top     #       0
        ASSERT  top = &300
        ORG     &8000
fill    STMFD   R13!,{R0-R5,R14}
        LDR     R0,=wave
        LDR     R1,=&30000
        ADD     R1,R1,#left
        MOV     R2,#length / 16
more    LDMIA   R0!,{R3-R5,R14}
        STMIA   R1!,{R3-R5,R14}
        SUBS    R2,R2,#1
        BNE     more
        LDR     R3,=ssend
        LDR     R4,=sstart
        STR     R1,[R3]
        STR     R1,[R4]
        LDMFD   R13!,{R0-R5,PC}^
        LTORG
wave    DCD     &01020304, 2_1010, 'A', 1:SHL:31
        DCD     wave, length - 1
        END
