; F is set past the header of the outer loop, and the inner one goes on while it is; I is never cleared.
irq      MOV    R1,#2
outer    TEQP   PC,#&0C000002
         MOV    R0,#3
inner    SUBS   R0,R0,#1
turn     BNE    inner
         TEQP   PC,#&08000002
         SUBS   R1,R1,#1
back     BNE    outer
         TEQP   PC,#&0C000002
         SUBS   PC,R14,#4
