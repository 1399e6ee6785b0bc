; The 6854's receiver: address match, then bytes until the frame ends.
adlc    *       &33A0000
sr1     *       0
sr2     *       1 * 4
fifo    *       2 * 4
rda     *       2_00000001
ap      *       2_00000001
fv      *       2_00000010
err     *       (2_11110000 :OR: fv) :SHR: 1 :SHL: 1
station *       254
ws      RN      9
        ^       &40,ws
frame   #       4
count   #       4
state   #       4
        ORG     &1C
rx      LDRB    R8,[R10,#sr2]
        TST     R8,#err
        BNE     over
        TST     R8,#ap
        BEQ     data
        LDRB    R8,[R10,#fifo]
        CMP     R8,#station
        MOVEQ   R8,#1
        STREQ   R8,state
        SUBEQS  PC,R14,#4
        B       over
data    LDR     R11,frame
        LDRB    R8,[R10,#fifo]
        STRB    R8,[R11],#1
        STR     R11,frame
        LDR     R8,count
        SUBS    R8,R8,#1
        STR     R8,count
        SUBHSS  PC,R14,#4
over    LDR     R8,=&A5A5A5A5
        STR     R8,state
        LDR     R11,=adlc
        STRB    R8,[R11,#sr1]
        SUBS    PC,R14,#4
        END
