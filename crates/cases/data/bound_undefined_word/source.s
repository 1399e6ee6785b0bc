start    DCD    &EE000000       ; a word of the undefined class
