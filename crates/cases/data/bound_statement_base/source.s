; Loads and stores by three bases, and returns from the interrupt.
start    LDR    R0,[R12]
slow     LDR    R1,[R12,#4]
         LDR    R2,[R11]
         LDMIA  R12,{R3,R4}
         LDR    R5,data
         STR    R5,[R12,R1]
         SUBS   PC,R14,#4
data     DCD    5
