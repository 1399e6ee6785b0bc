; A sector from an expansion card by IRQ, while a floppy disc's bytes come on FIQ. The card's handler is that of
; podule_block, the disc's is that of floppy; their READMEs say what the registers hold.

         ORG    &18
irq      B      sector

fiq      LDRB   R8,[R11,#&30]           ; FIQ status: bit 0 a byte is there, bit 1 the command has ended
         TST    R8,#1
         BEQ    no_byte
take     LDRB   R8,[R12,#&C]            ; the data register; the read withdraws the request
put      STRB   R8,[R10],#1
         SUBS   R13,R13,#1
         SUBNES PC,R14,#4               ; more are wanted
         MOV    R8,#2                   ; the sector is whole: from now on only the command's end may interrupt
only_end STRB   R8,[R11,#&38]           ; FIQ mask
         SUBS   PC,R14,#4

no_byte  TST    R8,#2
         SUBEQS PC,R14,#4               ; neither of the two: a request that was withdrawn
ended    LDRB   R8,[R12]                ; the status register; the read withdraws the request
status   STR    R8,[R9]                 ; for the driver
         MOV    R8,#0
no_more  STRB   R8,[R11,#&38]           ; FIQ mask: the floppy has done with FIQ
         SUBS   PC,R14,#4

         ORG    &8000
sector   SUB    R14,R14,#4              ; where the interrupted program goes on
save     STMFD  R13!,{R0-R10,R14}
         MOV    R10,#&3300000
         ORR    R10,R10,#&C0000
ask      LDR    R0,[R10,#&40]           ; the card's status
         TST    R0,#1
         BEQ    leave
where    LDR    R9,buffer
         MOV    R8,#&FF
         ORR    R8,R8,#&FF00            ; the low half of a word
         MOV    R14,#32                 ; 32 passes of 16 bytes are a sector
again    LDMIA  R10,{R0-R7}
         AND    R0,R0,R8
         ORR    R0,R0,R1,LSL #16
         AND    R1,R2,R8
         ORR    R1,R1,R3,LSL #16
         AND    R2,R4,R8
         ORR    R2,R2,R5,LSL #16
         AND    R3,R6,R8
         ORR    R3,R3,R7,LSL #16
keep     STMIA  R9!,{R0-R3}
         SUBS   R14,R14,#1
turn     BNE    again
         MOV    R0,#1
taken    STR    R0,[R10,#&60]           ; the card may read on
tell     STR    R0,done
leave    LDMFD  R13!,{R0-R10,PC}^

buffer   DCD    &20004                  ; where the sector goes
done     DCD    0                       ; 1 when it is there

; A run begins here, in IRQ mode, since a machine file sets no register of IOC: R1 is 3200000.
         ORG    &9000
begin    MOV    R0,#3
         STRB   R0,[R1,#&38]            ; FIQ mask: a byte, and a command's end
         B      irq
