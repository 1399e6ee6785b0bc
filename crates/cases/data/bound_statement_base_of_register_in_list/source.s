; Loads the base of another rule, and returns from the interrupt.
start    LDMIA  R1,{R2,R3}
         MOV    R2,R3
         SUBS   PC,R14,#4
