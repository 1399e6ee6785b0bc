; Multiplies twice, and returns from the interrupt.
start    MUL    R1,R2,R3
         MLA    R4,R2,R3,R1
         SUBS   PC,R14,#4
