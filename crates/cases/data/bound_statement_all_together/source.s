; Scales two bytes of a table by a routine that is called twice.
start    BL     scale
         BL     scale
         SUBS   PC,R14,#4
scale    MOV    R0,#2
again    LDR    R1,[R12]
mul      MUL    R2,R1,R3
clip     MOVCS  R2,#0
         SUBS   R0,R0,#1
turn     BNE    again
         MOV    PC,R14
