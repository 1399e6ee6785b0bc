; A load in a loop, an early way out that the greatest path passes over, and a multiply.
start    STMFD  R13!,{R4,R14}
again    LDR    R1,[R2],#4
         LDMEQFD R13!,{R4,PC}
         SUBS   R0,R0,#1
turn     BNE    again
         MUL    R4,R1,R5
         LDMFD  R13!,{R4,PC}
