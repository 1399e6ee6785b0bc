start    MOVNV  PC,R5
         SUBS   PC,R14,#4
