; Loads by two bases, and returns from the interrupt.
start    LDR    R0,[R1]
         LDR    R0,[R2]
         SUBS   PC,R14,#4
