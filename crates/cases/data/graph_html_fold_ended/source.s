; A routine with a loop around a call of another routine, which stands inside of the loop.
start    MOV    R4,R14
         BL     around
         SUBS   PC,R4,#4
around   MOV    R6,R14
         MOV    R0,#2
again    BL     inside
         B      next
inside   MOV    R1,#1
         MOV    PC,R14
next     SUBS   R0,R0,#1
turn     BNE    again
         MOV    PC,R6
