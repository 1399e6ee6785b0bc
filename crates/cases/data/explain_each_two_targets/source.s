; Two dispatchers, one after the other.
start    ADD    PC,PC,R0,LSL #2
         DCD    0
short    B      second
long     MUL    R2,R3,R4
second   ADD    PC,PC,R1,LSL #2
         DCD    0
out      SUBS   PC,R14,#4
busy     MUL    R2,R3,R4
         SUBS   PC,R14,#4
