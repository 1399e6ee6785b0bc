start    MOV    R0,#3
start    MOV    R0,#257
1st      MOV    R0,#4
         SUBS   PC,R14,#4
