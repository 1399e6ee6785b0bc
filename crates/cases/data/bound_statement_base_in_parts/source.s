; Loads three times by one base, and returns from the interrupt.
start    LDR    R0,[R12]
         LDR    R0,[R12]
         LDR    R0,[R12]
         SUBS   PC,R14,#4
