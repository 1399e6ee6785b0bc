; Econet on FIQ: bytes of a frame from the 68B54. It keeps three received bytes, and asks for FIQ when one has come or
; when something is to be seen in its second status register: the frame's end, or a fault on the line. The driver has left
; in FIQ's own registers
;   R9   the driver's block: a flag (byte at 0), the room left (word at 4), the second status (word at 8)
;   R10  where the next byte goes
;   R12  33A0000, the 68B54
;   R13  the room that is left, in bytes, at least 1
; and R8 is free.

         ORG    &1C
fiq      LDRB   R8,[R12]                ; first status: bit 0 a byte is there, bit 1 see the second status
         TST    R8,#2
         BNE    ended
take     LDRB   R8,[R12,#8]             ; the oldest byte
keep     STRB   R8,[R10],#1
         SUBS   R13,R13,#1
         BEQ    full
more     LDRB   R8,[R12]
         TST    R8,#1                   ; another one?
turn     BNE    take
         SUBS   PC,R14,#4

full     MOV    R8,#&A2                 ; first control: drop what is left of this frame
drop     STRB   R8,[R12]
room     STR    R13,[R9,#4]
         MOV    R8,#1
flag     STRB   R8,[R9]                 ; the frame was too long for its buffer
         SUBS   PC,R14,#4

ended    LDRB   R8,[R12,#4]             ; second status: bit 1 the frame is valid, others tell what went wrong
state    STR    R8,[R9,#8]
         TST    R8,#2
         BEQ    clear
last     LDRB   R8,[R12,#8]             ; the last byte of a valid frame
keep_it  STRB   R8,[R10],#1
clear    MOV    R8,#&21                 ; second control: clear what the receiver showed
reset    STRB   R8,[R12,#4]
         SUBS   PC,R14,#4
