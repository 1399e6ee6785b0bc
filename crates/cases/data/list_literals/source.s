; Takes a byte from the disc controller, with numbers that are loaded.
start    LDR    R12,=&3310000
         LDR    R10,=buffer
take     LDRB   R8,[R12]
         STRB   R8,[R10],#1
         LDR    R0,=&FF0
         LDR    R1,=-2
         SUBS   PC,R14,#4
         LTORG
buffer   DCD    0
         END
