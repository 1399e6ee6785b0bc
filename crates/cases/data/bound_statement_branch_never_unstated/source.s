start    MOVNE  PC,R1
         SUBS   PC,R14,#4
