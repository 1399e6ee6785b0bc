start    SWINV  0
         SUBS   PC,R14,#4
