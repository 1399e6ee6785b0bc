; Begins in the middle of the loop.
start    MOV    R0,#3
         B      turn
again    SUBS   R0,R0,#1
turn     BNE    again
         SUBS   PC,R14,#4
