; The sample timer as its author might have written it in ObjAsm.
ioc     *       &3200000
vidc    *       &3400000
drives  *       &3300000
latch   *       5 :SHL: 16
t0bit   *       1 :SHL: 5
jobs    *       4
off     *       2_00101111
ws      RN      12

        ^       0,ws
phase   #       4
table   #       4 * jobs
clock   #       8
turns   #       4
colour  #       4
held    #       4
again   #       4
spin    #       4
last    #       4

        ORG     &18
irq     B       tick

        ORG     &8000
tick    SUB     R14,R14,#4
save    STMFD   R13!,{R0-R3,ws,R14}
        LDR     R3,=ioc
        MOV     R0,#t0bit
clear   STRB    R0,[R3,#&14]
        ADR     ws,work
        LDR     R1,phase
        ADD     R0,R1,#1
        AND     R0,R0,#jobs - 1
next    STR     R0,phase
        ADR     R2,table
        BL      job
leave   LDMFD   R13!,{R0-R3,ws,PC}^

job     LDR     PC,[R2,R1,LSL #2]

time    ADR     R2,clock
low     LDMIA   R2,{R0,R1}
        ADDS    R0,R0,#jobs
        ADC     R1,R1,#0
high    STMIA   R2,{R0,R1}
        MOV     PC,R14

cursor  LDRB    R0,turns
        SUBS    R0,R0,#1
        MOVEQ   R0,#8
        STRB    R0,turns
        MOVNE   PC,R14
        LDR     R0,colour
        EOR     R0,R0,#&F00
        EOR     R0,R0,#&F
        STR     R0,colour
        LDR     R1,=vidc
        STR     R0,[R1]
        MOV     PC,R14

repeat  LDR     R0,held
        CMP     R0,#0
        MOVEQ   PC,R14
        SUBS    R0,R0,#1
        MOVEQ   R0,#2
        STR     R0,held
        MOVNE   PC,R14
        MOV     R0,#1
        STRB    R0,again
        MOV     PC,R14

motor   LDR     R0,spin
        SUBS    R0,R0,#1
        STRPL   R0,spin
        MOVNE   PC,R14
        MOV     R1,#drives
        ORR     R1,R1,#latch
        LDRB    R0,last
        ORR     R0,R0,#off
        STRB    R0,[R1,#&40]
        MOV     PC,R14

work    DCD     jobs - 1
        DCD     time,cursor,repeat,motor
        DCD     -2,0
        DCD     1
        DCD     &44:SHL:24 :OR: &F0F
        DCD     1
        DCD     0
        DCD     1
        DCD     &DE
        END
