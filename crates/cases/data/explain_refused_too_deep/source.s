start    MOV    R4,R14
         BL     deep
         SUBS   PC,R4,#4
deep     BL     deep
         MOV    PC,R14
