; FIQ's handler takes some 2^42 ticks in two loops, one inside the other. Both return from their interrupt.
         ORG    &1C
fiq      MOV    R9,#3
outer    MOV    R8,#3
inner    SUBS   R8,R8,#1
turn     BNE    inner
         SUBS   R9,R9,#1
back     BNE    outer
         SUBS   PC,R14,#4
         ORG    &8000
start    SUBS   PC,R14,#4
