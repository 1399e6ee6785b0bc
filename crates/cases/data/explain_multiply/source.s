; A multiply, and a load of R15 by which the handler leaves to RAM.
start    STMFD  R13!,{R0,R14}
         MUL    R0,R1,R2
out      LDMFD  R13!,{R0,PC}
