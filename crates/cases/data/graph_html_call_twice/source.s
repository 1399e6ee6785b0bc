; Two calls of one function, which is two places, each with its own return.
start    MOV    R4,R14
         BL     callee
         BL     callee
         SUBS   PC,R4,#4
         DCD    0
callee   MOV    PC,R14
