; A byte from the 6551 of the serial port, into a ring.
        TTL     Serial port
        AREA    |serial$$code|, CODE, READONLY

acia    *       &3000000 + &3B0000      ; the chip's page
rxdata  *       0
status  *       4
rxfull  *       1 :SHL: 3
ringend *       &FF
ws      RN      11
chip    RN      10
byte    RN      9

        ^       0,ws
head    #       4
tail    #       4
lost    #       4
ring    #       256

        ORG     &8000
entry   STMFD   R13!,{R9-R11,R14}
        LDR     chip,=acia
        LDR     ws,=&1F000
        LDRB    R14,[chip,#status]
        TST     R14,#rxfull
        BEQ     out
        LDRB    byte,[chip,#rxdata]
        LDR     R14,head
        ADD     R14,R14,#1
        AND     R14,R14,#ringend
        STR     R14,head
        ADR     R14,ring
        STRB    byte,[R14]
out     LDMFD   R13!,{R9-R11,PC}^
        END
