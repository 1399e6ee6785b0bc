; A register of a device, read by a routine that is called twice; the handler leaves to RAM.
start    MOV    R4,R14
         BL     read
         BL     read
         SUBS   PC,R4,#4
read     LDR    R1,[R2]
         MOV    PC,R14
