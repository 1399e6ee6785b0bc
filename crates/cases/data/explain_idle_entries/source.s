; A countdown, and words that are never reached.
start    MOV    R0,#3
again    SUBS   R0,R0,#1
turn     BNE    again
         SUBS   PC,R14,#4
other    LDR    R1,[R2]
jump     MOV    PC,R3
