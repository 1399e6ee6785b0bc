; Vertical flyback with a new palette, for a game that has the machine to itself: of all interrupts only this one is
; enabled, so nobody is asked who it was. The colours must be changed before the first raster is shown.

         ORG    &18
irq      B      flyback

         ORG    &8000
flyback  SUB    R14,R14,#4              ; where the game goes on
save     STMFD  R13!,{R0-R6,R14}
         MOV    R0,#&3200000
         MOV    R1,#8
clear    STRB   R1,[R0,#&14]            ; IOC: the flyback's request is seen
frame    LDR    R1,frames
         ADD    R1,R1,#1
count    STR    R1,frames               ; the game waits until this changes
asked    LDR    R1,wanted
         TEQ    R1,#0                   ; is there a new palette?
         BEQ    leave
         MOV    R1,#0
seen     STR    R1,wanted
         ADR    R0,palette
         MOV    R5,#4                   ; four passes of four colours
         MOV    R6,#&3400000            ; VIDC: the register's number is in the word's top byte
again    LDMIA  R0!,{R1-R4}
colour   STMIA  R6,{R1-R4}
         SUBS   R5,R5,#1
turn     BNE    again
border   LDR    R1,[R0]
last     STR    R1,[R6]
leave    LDMFD  R13!,{R0-R6,PC}^

frames   DCD    0
wanted   DCD    1
palette  DCD    &00000000,&0400000F,&080000F0,&0C0000FF ; black, red, green, yellow
         DCD    &10000F00,&14000F0F,&18000FF0,&1C000FFF ; blue, magenta, cyan, white
         DCD    &20000333,&24000337,&28000373,&2C000377
         DCD    &30000733,&34000737,&38000773,&3C000777
         DCD    &40000000                               ; and the border's
