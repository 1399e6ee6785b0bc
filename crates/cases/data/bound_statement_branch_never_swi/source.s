start    SWINE  5
         SUBS   PC,R14,#4
