; A loop inside of another, a routine with a loop, and a jump to one of two words.
start    MOV    R4,R14
         MOV    R0,#2
outer    MOV    R1,#3
inner    SUBS   R1,R1,#1
most     BNE    inner
         BL     wait
         SUBS   R0,R0,#1
last     BNE    outer
pick     MOV    PC,R5
one      MOV    R6,#1
two      SUBS   PC,R4,#4
wait     MOV    R2,#4
again    SUBS   R2,R2,#1
turn     BNE    again
         MOV    PC,R14
