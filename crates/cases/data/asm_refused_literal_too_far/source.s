         MOV    R0,#1
         LDR    R1,=&12345
         ORG    &900C
         LTORG
