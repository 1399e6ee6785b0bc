; A handler of IRQ that has its BL in two words: work comes back by R14 to back.
         ORG    &18
         B      irq
         ORG    &8000
irq      STMFD  R13!,{R0-R1,R14}
         ADR    R14,back
         B      work
back     LDMFD  R13!,{R0-R1,R14}
         MUL    R0,R1,R2
         MUL    R0,R1,R2
         SUBS   PC,R14,#4
work     MOV    R0,#1
         MOV    PC,R14
