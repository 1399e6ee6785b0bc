start    LDR    R0,[R1]
         SUBS   PC,R14,#4
