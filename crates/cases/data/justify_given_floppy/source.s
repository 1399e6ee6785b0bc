; Floppy bytes on FIQ. While a sector is read, the WD1772 asks for FIQ at each byte, and once more when its command has
; ended. Every 32 microseconds a byte comes, at double density, so there is no time for saving registers: the driver that
; claimed FIQ has left in FIQ's own registers
;   R9   the driver's block: a word for the controller's last status
;   R10  where the next byte goes
;   R11  3200000, IOC
;   R12  3310000, the WD1772
;   R13  the bytes that are still wanted
; and R8 is free.

         ORG    &1C
fiq      LDRB   R8,[R11,#&30]           ; FIQ status: bit 0 a byte is there, bit 1 the command has ended
         TST    R8,#1
         BEQ    no_byte
take     LDRB   R8,[R12,#&C]            ; the data register; the read withdraws the request
keep     STRB   R8,[R10],#1
         SUBS   R13,R13,#1
         SUBNES PC,R14,#4               ; more are wanted
         MOV    R8,#2                   ; the sector is whole: from now on only the command's end may interrupt
only_end STRB   R8,[R11,#&38]           ; FIQ mask
         SUBS   PC,R14,#4

no_byte  TST    R8,#2
         SUBEQS PC,R14,#4               ; neither of the two: a request that was withdrawn
ended    LDRB   R8,[R12]                ; the status register; the read withdraws the request
status   STR    R8,[R9]                 ; for the driver
         MOV    R8,#0
no_more  STRB   R8,[R11,#&38]           ; FIQ mask: the floppy has done with FIQ
         SUBS   PC,R14,#4
