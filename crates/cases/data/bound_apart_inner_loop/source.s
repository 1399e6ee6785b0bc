; Two passes, in each of which it counts down from 3.
start    MOV    R1,#2
outer    MOV    R0,#3
inner    SUBS   R0,R0,#1
turn     BNE    inner
         SUBS   R1,R1,#1
back     BNE    outer
         SUBS   PC,R14,#4
