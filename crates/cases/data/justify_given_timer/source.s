; Timer 0 ticks every 10 ms, and every tick does one of four jobs in turn, each by its address in a table.

         ORG    &18
irq      B      tick

         ORG    &8000
tick     SUB    R14,R14,#4              ; where the interrupted program goes on
save     STMFD  R13!,{R0-R3,R12,R14}
         MOV    R3,#&3200000
         MOV    R0,#&20
clear    STRB   R0,[R3,#&14]            ; IOC: timer 0's request is seen
         ADR    R12,work
phase    LDR    R1,[R12]                ; the job of this tick, 0 to 3
         ADD    R0,R1,#1
         AND    R0,R0,#3
next     STR    R0,[R12]
         ADD    R2,R12,#4               ; the table
         BL     job
leave    LDMFD  R13!,{R0-R3,R12,PC}^

; The job of this tick, which returns for us.
job      LDR    PC,[R2,R1,LSL #2]

; Job 0: a clock of 64 bits, in units of 10 ms; four have passed since this job's last turn.
clock    ADD    R2,R12,#&14
low      LDMIA  R2,{R0,R1}
         ADDS   R0,R0,#4
         ADC    R1,R1,#0
high     STMIA  R2,{R0,R1}
         MOV    PC,R14

; Job 1: the cursor changes between two colours every eighth turn.
cursor   LDRB   R0,[R12,#&1C]           ; turns until the next change
         SUBS   R0,R0,#1
         MOVEQ  R0,#8
turns    STRB   R0,[R12,#&1C]
         MOVNE  PC,R14
colours  LDR    R0,[R12,#&20]
         EOR    R0,R0,#&F00             ; blue on or off
         EOR    R0,R0,#&F               ; and red
shade    STR    R0,[R12,#&20]
         MOV    R1,#&3400000
vidc     STR    R0,[R1]                 ; VIDC's cursor colour 1
         MOV    PC,R14

; Job 2: a key that is held repeats.
repeat   LDR    R0,[R12,#&24]           ; turns until it repeats, or 0 where none is held
         CMP    R0,#0
         MOVEQ  PC,R14
         SUBS   R0,R0,#1
         MOVEQ  R0,#2
left     STR    R0,[R12,#&24]
         MOVNE  PC,R14
         MOV    R0,#1
again    STRB   R0,[R12,#&28]           ; the keyboard driver looks here
         MOV    PC,R14

; Job 3: the floppy's motor stops when nobody has used it for a while.
motor    LDR    R0,[R12,#&2C]
         SUBS   R0,R0,#1
spin     STRPL  R0,[R12,#&2C]
         MOVNE  PC,R14
         MOV    R1,#&3300000
         ORR    R1,R1,#&50000
latch    LDRB   R0,[R12,#&30]           ; what the latch of the drives was last given
         ORR    R0,R0,#&2F              ; no motor, and no drive is chosen
drives   STRB   R0,[R1,#&40]
         MOV    PC,R14

work     DCD    3                       ; the job of the next tick
         DCD    clock,cursor,repeat,motor
         DCD    &FFFFFFFE,0             ; the clock
         DCD    1                       ; turns until the cursor changes
         DCD    &44000F0F               ; its colour, with the number of VIDC's register
         DCD    1                       ; turns until the key repeats
         DCD    0                       ; a key has repeated
         DCD    1                       ; turns until the motor stops
         DCD    &DE                     ; the latch of the drives: drive 0, its motor on
