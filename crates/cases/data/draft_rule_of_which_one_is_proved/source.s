start    LDR    R1,device
         LDRB   R0,[R1,#4]
         LDRB   R0,[R1,#8]
         MOV    R1,#&3300000
         LDRB   R0,[R1,#4]
done     SUBS   PC,R14,#4
device   DCD    &3310000
