; A handler that loads the R14 of User after its call, and then returns by its own.
start    MOV    R0,#&9000
         BL     clear
         LDMIA  R0,{R14}^
         SUBS   PC,R14,#4
clear    MOV    R1,#0
         MOV    PC,R14
