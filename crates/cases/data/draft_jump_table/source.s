start    ADD    PC,PC,R0,LSL #2
         DCD    0
slow     MUL    R2,R3,R4
fast     SUBS   PC,R14,#4
