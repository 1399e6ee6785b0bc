start    DCD    &F1010002       ; TSTNV R1,R2, but without its S
         SUBS   PC,R14,#4
