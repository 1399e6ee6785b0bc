start    DCD    &F0000190       ; MUL R0,R0,R1
         SUBS   PC,R14,#4
