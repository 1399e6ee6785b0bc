start    CMP    R0,#0
         MOVNE  R1,#1
         MOVEQ  R2,#2
         SUBS   PC,R14,#4
