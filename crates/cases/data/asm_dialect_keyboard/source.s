; The sample keyboard as its author might have written it in ObjAsm.
        TTL     The keyboard's link
ioc     *       &3200000
kart    *       4                       ; the link's byte
irqb    *       &20                     ; IRQ B status
came    *       1 :SHL: 7
hack    *       &3F                     ; the answers to a first byte and to a second
sack    *       &31
up      *       1 :SHL: 4
cols    *       16
ptr     RN      3
chip    RN      4

        AREA    |KART$$Code|, CODE, READONLY
        ORG     &18
irq     B       key

        ORG     &8000
key     SUB     R14,R14,#4
save    STMFD   R13!,{R0-chip,R14}
        LDR     chip,=ioc
ask     LDRB    R0,[chip,#irqb]
        TST     R0,#came
        BEQ     leave
take    LDRB    R0,[chip,#kart]
        ADR     ptr,first
kept    LDRB    R1,[ptr]
        TEQ     R1,#0
        BNE     second
keep    STRB    R0,[ptr]
        MOV     R0,#hack
        B       answer
second  LDR     R2,=0
forget  STRB    R2,[ptr]
        AND     R0,R0,#cols - 1
        AND     R2,R1,#cols - 1
        TST     R2,#1
        ADDNE   R0,R0,#cols
        MOV     R2,R2,LSR #1
        ADR     ptr,map
        ADD     ptr,ptr,R2,LSL #2
        MOV     R2,#1
        MOV     R2,R2,LSL R0
word    LDR     R0,[ptr]
        TST     R1,#up
        BICNE   R0,R0,R2
        ORREQ   R0,R0,R2
change  STR     R0,[ptr]
        MOV     R0,#sack
answer  STRB    R0,[chip,#kart]
leave   LDMFD   R13!,{R0-chip,PC}^

first   DCD     2_11010101
map     DCD     0,0,1:SHL:cols,0,0,0,0,0
        END
