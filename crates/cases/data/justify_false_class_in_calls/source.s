; Two routines that are called with two bases each: of the one both are devices, and of the other one.
start    MOV    R4,R14
         MOV    R1,#&3200000
         BL     write
         BL     read
         ADD    R1,R1,#&10000
         BL     write
         MOV    R1,#&9000
         BL     read
         SUBS   PC,R4,#4
write    STR    R0,[R1,#4]
         MOV    PC,R14
read     LDR    R0,[R1]
         MOV    PC,R14
