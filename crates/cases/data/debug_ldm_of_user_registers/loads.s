; In IRQ mode, with 8100 in R0.
        LDMIA R0,{R13,R14}^
        TEQP  R15,#0
        ORG   &8100
        DCD   13,14
