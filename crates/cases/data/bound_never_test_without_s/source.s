start    DCD    &F3000000       ; TST R0,#0 without its S
         SUBS   PC,R14,#4
