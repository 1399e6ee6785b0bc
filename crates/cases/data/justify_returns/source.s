; Called twice, and returns by an R14 that it kept.
start    MOV    R12,R14
         BL     count
         BL     count
         SUBS   PC,R12,#4
count    TST    R0,#1
         MOVEQ  PC,R14
         MOV    PC,R14
