; A sector from an expansion card, by IRQ. The card has a buffer of one sector with a port of 16 bits: each word read
; from 33C0000 to 33C001C has the next half word in its low half. A pass of the loop takes eight of them and makes four
; words. The card's other registers are at 33C0040 (status, bit 0: a sector is there) and at 33C0060 (any write: taken).

         ORG    &18
irq      B      sector

         ORG    &8000
sector   SUB    R14,R14,#4              ; where the interrupted program goes on
save     STMFD  R13!,{R0-R10,R14}
         MOV    R10,#&3300000
         ORR    R10,R10,#&C0000
ask      LDR    R0,[R10,#&40]           ; the card's status
         TST    R0,#1
         BEQ    leave
where    LDR    R9,buffer
         MOV    R8,#&FF
         ORR    R8,R8,#&FF00            ; the low half of a word
         MOV    R14,#32                 ; 32 passes of 16 bytes are a sector
again    LDMIA  R10,{R0-R7}
         AND    R0,R0,R8
         ORR    R0,R0,R1,LSL #16
         AND    R1,R2,R8
         ORR    R1,R1,R3,LSL #16
         AND    R2,R4,R8
         ORR    R2,R2,R5,LSL #16
         AND    R3,R6,R8
         ORR    R3,R3,R7,LSL #16
keep     STMIA  R9!,{R0-R3}
         SUBS   R14,R14,#1
turn     BNE    again
         MOV    R0,#1
taken    STR    R0,[R10,#&60]           ; the card may read on
tell     STR    R0,done
leave    LDMFD  R13!,{R0-R10,PC}^

buffer   DCD    &20004                  ; where the sector goes
done     DCD    0                       ; 1 when it is there
