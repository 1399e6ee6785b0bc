start    LDR    R2,place
         LDR    R3,place
         CMP    R1,#0
jump     MOVNE  PC,R5
         SUBS   PC,R14,#4
later    LDR    R4,[PC,R6]
place    DCD    0
