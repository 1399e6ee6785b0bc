; The loop turns back before F is cleared, and F is set inside of it.
irq      MOV    R0,#3
again    TEQP   PC,#&0C000002
         SUBS   R0,R0,#1
turn     BNE    again
         TEQP   PC,#&08000002
         SUBS   PC,R14,#4
