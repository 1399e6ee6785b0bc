start    MOV    R0,#3
again    SUBS   R0,R0,#1
turn     BNE    again
call     SWI    0
