; Counts down from 3, and returns from the interrupt.
start    MOV    R0,#3
again    SUBS   R0,R0,#1
turn     BNE    again
         SUBS   PC,R14,#4
