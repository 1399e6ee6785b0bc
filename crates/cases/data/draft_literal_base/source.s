start    LDR    R1,device
         LDR    R2,changed
         LDRB   R0,[R1,#4]
         LDRB   R3,[R2]
         STR    R0,changed
         SUBS   PC,R14,#4
device   DCD    &3310000
changed  DCD    &3310000
