         ORG    &8000
start    LDR    R1,where
         LDR    R2,[R1]
leave    SUBS   PC,R14,#4
where    DCD    &3200000
