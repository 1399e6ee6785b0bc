; The first routine keeps R14 on the stack while it calls another; the second does not, and calls on one way alone.
start    MOV    R4,R14
         BL     keeps
         BL     loses
         MOV    R14,R4
         SUBS   PC,R14,#4
keeps    STR    R14,[R13,#-4]!
         BL     leaf
back     LDR    R14,[R13],#4
         MOV    PC,R14
loses    TST    R0,#1
         BLNE   leaf
         ADD    R1,R1,#1
         MOV    PC,R14
leaf     MOV    PC,R14
