; A disc controller on an expansion card. While it asks, one phase of the command after another is served: a word from the
; disc, a word to it, its status, its last message; no more than four for one interrupt. The routines of the phases lie in
; the loop, and so does the one exit, to which three of them go when the command is over, and to which IRQ's first test goes.

         ORG    &18
irq      B      scsi

         ORG    &8000
scsi     SUB    R14,R14,#4              ; where the interrupted program goes on
save     STMFD  R13!,{R0-R5,R12,R14}
         MOV    R4,#&33C0000            ; the card
         ADR    R12,work
         MOV    R5,#4                   ; so many phases for one interrupt
ask      LDRB   R0,[R4]                 ; bit 7: it asks; bits 0 and 1: for which phase
         TST    R0,#&80
         BEQ    exit                    ; it was another card

next     AND    R1,R0,#3
phase    ADD    PC,PC,R1,LSL #2         ; to the second word from here, or one of the three after it
         DCD    0
         B      in
         B      out
         B      status
         B      message

; Data from the disc, as long as there is room.
in       LDMIA  R12,{R2,R3}             ; where the next word goes, and the buffer's end
         CMP    R2,R3
         BCS    fail
fetch    LDR    R0,[R4,#4]
         STR    R0,[R2],#4
         STR    R2,[R12]
         B      again

; Data to the disc.
out      LDMIA  R12,{R2,R3}
         CMP    R2,R3
         BCS    fail
         LDR    R0,[R2],#4
send     STR    R0,[R4,#4]
         STR    R2,[R12]
         B      again

; The one exit: the command has failed, or is over, or nothing was to be done.
fail     MOV    R0,#&80
over     STRB   R0,[R12,#8]             ; for the program, which waits for it
         STRB   R0,[R4,#8]              ; the card lets go of the interrupt
exit     LDMFD  R13!,{R0-R5,R12,PC}^

; The command's status: bit 1 is an error.
status   LDRB   R0,[R4,#4]
         STRB   R0,[R12,#9]
         TST    R0,#2
         BNE    fail
         B      again

; The last message: 0 says that the command is complete.
message  LDRB   R0,[R4,#4]
         TEQ    R0,#0
         BNE    fail
         MOV    R0,#1
         B      over

again    SUBS   R5,R5,#1
more     LDRNEB R0,[R4]
         TSTNE  R0,#&80
turn     BNE    next
         B      exit                    ; it will interrupt again

work     DCD    &20000,&20200           ; the buffer: its next word, and its end
         DCD    0                       ; how the last command ended, and its status
