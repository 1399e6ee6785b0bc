start    MOVS   R0,R0
         BEQ    out
         ADR    R1,again
         MOV    PC,R1
again    SUBS   R0,R0,#1
         BEQ    out
         B      again2
out      SUBS   PC,R14,#4
again2   TST    R0,#1
         BNE    again
         B      again
