; Counts down from 3 as often as there is something to do.
start    MOV    R0,#3
again    SUBS   R0,R0,#1
turn     BNE    again
         LDR    R1,[R2]
         CMP    R1,#0
outer    BNE    start
         SUBS   PC,R14,#4
