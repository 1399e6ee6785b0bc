start    DCD    &E0000190       ; MUL R0,R0,R1
