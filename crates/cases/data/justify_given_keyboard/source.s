; The keyboard, through IOC's serial link (KART). For each key that goes down or up the keyboard sends two bytes, and
; waits for an answer to each: first C0 (down) or D0 (up) with the key's row in the low four bits, then the same with its
; column. (The mouse, which sends other bytes, is not enabled.) The map has one bit for each key, at row * 16 + column; a
; row has 16 columns, so two rows share a word.

         ORG    &18
irq      B      key

         ORG    &8000
key      SUB    R14,R14,#4              ; where the interrupted program goes on
save     STMFD  R13!,{R0-R4,R14}
         MOV    R4,#&3200000
ask      LDRB   R0,[R4,#&20]            ; IRQ B status
         TST    R0,#&80                 ; bit 7: a byte has come
         BEQ    leave
take     LDRB   R0,[R4,#4]              ; the byte; the read withdraws the request
         ADR    R3,first
kept     LDRB   R1,[R3]                 ; the first byte of the pair, or 0
         TEQ    R1,#0
         BNE    second

; The first byte of a pair: keep it.
keep     STRB   R0,[R3]
         MOV    R0,#&3F                 ; the answer to a first byte
         B      answer

; The second one: find the key's bit, and set or clear it.
second   MOV    R2,#0
forget   STRB   R2,[R3]
         AND    R0,R0,#&F               ; the column
         AND    R2,R1,#&F               ; the row
         TST    R2,#1                   ; odd rows have the upper half of their word
         ADDNE  R0,R0,#16
         MOV    R2,R2,LSR #1
         ADR    R3,map
         ADD    R3,R3,R2,LSL #2
         MOV    R2,#1
         MOV    R2,R2,LSL R0            ; the key's bit
word     LDR    R0,[R3]
         TST    R1,#&10                 ; D0: it went up
         BICNE  R0,R0,R2
         ORREQ  R0,R0,R2
change   STR    R0,[R3]
         MOV    R0,#&31                 ; the answer to a second byte
answer   STRB   R0,[R4,#4]              ; send it
leave    LDMFD  R13!,{R0-R4,PC}^

first    DCD    &D5                     ; the first byte of a key that goes up in row number 5
map      DCD    0,0,&00010000,0,0,0,0,0
