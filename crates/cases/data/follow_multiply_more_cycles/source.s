; Multiplies, and returns from the interrupt.
start    MUL    R1,R2,R3
         SUBS   PC,R14,#4
