start    MOV    R1,#&3200000
         LDRB   R0,[R1,#4]
         LDRB   R0,[R1,#8]
         STRB   R0,[R1,R2]
done     SUBS   PC,R14,#4
