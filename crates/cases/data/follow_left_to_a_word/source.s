irq      STMFD  R13!,{R0-R1,R14}
         ADR    R14,back
         B      work
back     LDMFD  R13!,{R0-R1,R14}
         MUL    R0,R1,R2
         MUL    R0,R1,R2
         SUBS   PC,R14,#4
work     MOV    R0,#1
         MOV    PC,R14
