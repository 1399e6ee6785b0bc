; FIQ is masked while a count is moved that its handler reads too. IRQ stays masked up to the end.
         ORG    &18
irq      STMFD  R13!,{R0-R1}
         TEQP   PC,#&0C000002           ; F and I set, IRQ mode
         LDR    R0,[R12]
         ADD    R0,R0,#1
         STR    R0,[R12]
         TEQP   PC,#&08000002           ; F clear
         LDMFD  R13!,{R0-R1}
         SUBS   PC,R14,#4
