; A dispatcher of two levels. The first asks both banks of IOC which of the enabled interrupts it is; the second goes over
; four expansion cards, which share one interrupt. IRQ stays disabled throughout, so each routine keeps its way back on the
; stack of IRQ mode where it calls another one.

         ORG    &18
irq      B      dispatch

         ORG    &8000
dispatch SUB    R14,R14,#4              ; where the interrupted program goes on
save     STMFD  R13!,{R0-R4,R11,R12,R14}
         MOV    R11,#&3200000
         ADR    R12,work
ask_a    LDRB   R0,[R11,#&10]           ; IRQ A status
want_a   LDRB   R1,[R12]                ; of which we serve these
         ANDS   R0,R0,R1
         BLNE   bank_a
ask_b    LDRB   R0,[R11,#&20]           ; IRQ B status
want_b   LDRB   R1,[R12,#1]
         ANDS   R0,R0,R1
         BLNE   bank_b
leave    LDMFD  R13!,{R0-R4,R11,R12,PC}^

; Bank A: the printer's acknowledge A2, and timer 1.
bank_a   STR    R14,[R13,#-4]!
         TST    R0,#4
         BLNE   printer
         TST    R0,#&40
         BLNE   timer
end_a    LDR    PC,[R13],#4

; Bank B: the sound's line B1, and the cards' line B5.
bank_b   STR    R14,[R13,#-4]!
         TST    R0,#2
         BLNE   sound
         TST    R0,#&20
         BLNE   cards
end_b    LDR    PC,[R13],#4

; The printer has taken a byte, and is given the next one.
printer  MOV    R1,#4
taken    STRB   R1,[R11,#&14]           ; its request is seen
where    LDR    R2,[R12,#4]             ; where the next byte is
byte     LDRB   R3,[R2],#1
on       STR    R2,[R12,#4]
         ADD    R1,R11,#&150000         ; 3350000, the printer's latch
print    STRB   R3,[R1,#&10]
         MOV    PC,R14

; Timer 1 counts.
timer    MOV    R1,#&40
clear    STRB   R1,[R11,#&14]           ; its request is seen
ticks    LDR    R1,[R12,#8]
         ADD    R1,R1,#1
ticked   STR    R1,[R12,#8]
         MOV    PC,R14

; Sound: the other one of the two buffers is played next.
sound    LDR    R1,[R12,#&C]            ; MEMC's two addresses for the next buffer
ends     LDMIA  R1,{R2,R3}
start    STR    R0,[R2]                 ; MEMC takes its value from the address alone
end      STR    R0,[R3]
swap     LDR    R2,[R1,#8]              ; the other pair
next     STR    R2,[R12,#&C]
         MOV    PC,R14

; The cards: each one that asks is served by whoever has claimed it.
cards    STR    R14,[R13,#-4]!
         ADR    R4,slots
         MOV    R3,#4
each     LDMIA  R4!,{R1,R2}             ; the address of a card's status, and its routine
state    LDRB   R0,[R1]
         TST    R0,#1                   ; bit 0: it interrupts
         MOVNE  R14,PC                  ; two words on from here
serve    MOVNE  PC,R2
         SUBS   R3,R3,#1
turn     BNE    each
end_c    LDR    PC,[R13],#4

; A disc's command has ended: it is told to be quiet, and the program finds that out later.
disc     MOV    R2,#0
hush     STRB   R2,[R1,#4]
which    STRB   R3,[R12,#2]
         MOV    PC,R14

; A MIDI interface has a byte, which goes after those that have come.
midi     LDRB   R0,[R1,#8]
place    LDR    R2,[R12,#&10]
queue    STRB   R0,[R2],#1
placed   STR    R2,[R12,#&10]
         MOV    PC,R14

; No card: nobody asks, or the bus is noisy.
nobody   MOV    PC,R14

work     DCD    &00002244               ; served of bank A: 44; of bank B: 22; the last disc: none
         DCD    text                    ; the next byte to be printed
         DCD    0                       ; ticks of timer 1
         DCD    pair_1                  ; the next buffer of sound
         DCD    &20000                  ; where the next byte of MIDI goes
slots    DCD    &33C0000,disc,&33C4000,midi
         DCD    &33C8000,midi,&33CC000,nobody
pair_1   DCD    &3684000,&36A4FF0       ; MEMC: start and end of sound's next buffer
         DCD    pair_2
pair_2   DCD    &3685000,&36A5FF0
         DCD    pair_1
text     DCD    &0A0D6948
