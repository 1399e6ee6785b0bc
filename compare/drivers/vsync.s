; Each flyback writes the palette's next entry, and the borders' colour each second.
vidc    *       &3400000
ioc     *       &3200000
flyback *       1:SHL:3
frames  *       50
border  *       2_01000000:SHL:24
debug   *       0
        ORG     &18
        B       vsync
        ORG     &8100
vsync   SUB     R14,R14,#4
        STMFD   R13!,{R0-R4,R14}
        MOV     R0,#ioc
        MOV     R1,#flyback
        STRB    R1,[R0,#&14]
        ADR     R0,state
        LDMIA   R0,{R1,R2}
        MOV     R3,#vidc
        LDR     R4,[R1],#4
        STR     R4,[R3]
        SUBS    R2,R2,#1
        IF      debug <> 0
        SWI     &100 + 'v'
        ELSE
        MOVEQ   R2,#frames
        LDREQ   R4,=border :OR: &F0F
        ENDIF
        STREQ   R4,[R3]
        STMIA   R0,{R1,R2}
        LDMFD   R13!,{R0-R4,PC}^
state   DCD     colours
        DCD     frames
colours DCD     0, &11111111, &22222222
        END
