         MOV    PC,R0,LSL R1
