; IRQ's handler reads a byte, and a routine of the same source runs with IRQ disabled.
         ORG    &18
irq      B      start
         ORG    &8000
start    SUB    R14,R14,#4
         STMFD  R13!,{R0,R14}
read     LDRB   R0,[R12]
leave    LDMFD  R13!,{R0,PC}^
reset    MOV    R0,#0
         MOV    PC,R14
