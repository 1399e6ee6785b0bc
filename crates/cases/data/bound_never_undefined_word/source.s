start    DCD    &FE000000       ; a word of the undefined class, under NV
         SUBS   PC,R14,#4
