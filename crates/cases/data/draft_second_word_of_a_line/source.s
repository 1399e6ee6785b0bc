start    ; two words, as numbers
         DCD    &E5910000,&E1B0F00E      ; LDR R0,[R1] and MOVS PC,R14
