start    MOV    R0,#3
again    SUBS   R0,R0,#1
inner    SUBS   R1,R1,#1
turn     BNE    again
outer    BNE    inner
         SUBS   PC,R14,#4
