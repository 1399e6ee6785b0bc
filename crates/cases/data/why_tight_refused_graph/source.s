start    MOV    R0,#3
         ADD    R0,R0,#1
