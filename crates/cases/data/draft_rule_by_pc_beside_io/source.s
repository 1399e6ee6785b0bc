         ORG    &2FFFFF0
start    LDR    R0,[PC,#0]
         LDR    R1,[PC,#0]
         LDR    R2,[PC,#0]
         SUBS   PC,R14,#4
