start    DCD    &F6000010       ; a word of the undefined class among LDR and STR
         SUBS   PC,R14,#4
