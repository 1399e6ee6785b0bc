start    SUBS   PC,R14,#4
