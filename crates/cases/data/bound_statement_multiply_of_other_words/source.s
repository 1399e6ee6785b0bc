; Shifts by a register, moves and loads.
start    MOV    R0,R1,LSL R2
         MOV    R0,#1
         LDR    R1,[R2]
         SUBS   PC,R14,#4
