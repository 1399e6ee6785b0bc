; Multiplies only where R0 is not 0, which is stated never to be so.
start    CMP    R0,#0
mul      MULNE  R1,R2,R3
store    STREQ  R1,[R12]
         SUBS   PC,R14,#4
