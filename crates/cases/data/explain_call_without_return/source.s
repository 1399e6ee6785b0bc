; A call that does not come back, and a word that would return by a lost R14 if it did not jump.
start    TST    R0,#1
         BLNE   never
         MOVEQ  PC,R14
         MOV    R4,R14
         BL     leaf
jump     MOV    PC,R14
last     MOV    R14,R4
         SUBS   PC,R14,#4
never    MOV    R1,#0
out      SUBS   PC,R14,#4
leaf     MOV    PC,R14
