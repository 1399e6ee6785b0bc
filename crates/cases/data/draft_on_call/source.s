start    ADR    R1,routine
         MOV    R14,PC
         MOV    PC,R1
after    SUBS   PC,R14,#4
routine  LDR    R0,[R13]
         MOV    PC,R14
