start    MOV    R1,#3
         SUB    R14,PC,R0,LSL R1
         MOV    PC,R14
