         MOV    PC,R14
