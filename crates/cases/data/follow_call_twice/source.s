; Two calls of one function, which is two places, each with a load from an address of which nothing is stated.
start    MOV    R4,R14
         BL     callee
         BL     callee
         SUBS   PC,R4,#4
callee   LDR    R0,[R1]
         MOV    PC,R14
