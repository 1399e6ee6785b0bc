start    DCD    &E6000010       ; a word of the undefined class among LDR and STR
