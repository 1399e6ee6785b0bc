first    LDR    R0,=&12345678
pool     LTORG  ; the first
         LDR    R1,=&12345678
         LDR    R2,=first
         LTORG
         MOV    R0,#1
