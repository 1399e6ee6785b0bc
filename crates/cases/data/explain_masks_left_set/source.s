; F is set until the handler is left. TEQ without P, with another register and MOVS show nothing of it.
irq      TEQNEP PC,#&0C000002
         TEQ    PC,#&08000002
         TEQP   R0,#2
         TEQP   PC,R1
         SUBS   PC,R14,#4
