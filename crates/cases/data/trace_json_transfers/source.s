; A skipped word, a load, a block stored, and a byte stored and loaded.
         MOVS   R0,#0
         MOVNE  R1,#1
         LDR    R2,&8004
         STMIA  R13!,{R0,R2}
         STRB   R2,[R13,#3]
         LDRB   R3,[R13,#3]
