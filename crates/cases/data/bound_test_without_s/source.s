start    DCD    &E3000000       ; TST R0,#0, but without its S
