         MOV    R0,#3
         DCD    &E1010002       ; TST R1,R2, but without its S
