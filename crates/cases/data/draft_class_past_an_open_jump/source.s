start    CMP    R1,#0
jump     MOVNE  PC,R5
         MOV    R1,#&3200000
ask      LDRB   R0,[R1]
where    LDR    R2,place
         SUBS   PC,R14,#4
place    DCD    0
