; IRQ's handler reads a byte, and a routine of the same source runs with IRQ disabled. FIQ's handler returns at
; once, and may come before IRQ's and inside of it.
         ORG    &18
irq      B      start
fiq      SUBS   PC,R14,#4
         ORG    &8000
start    SUB    R14,R14,#4
         STMFD  R13!,{R0,R14}
read     LDRB   R0,[R12]
leave    LDMFD  R13!,{R0,PC}^
reset    MOV    R0,#0
         MOV    PC,R14
