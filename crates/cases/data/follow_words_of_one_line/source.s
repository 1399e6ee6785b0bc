; The countdown, whose branch and return are two words of one line.
start    MOV    R0,#3
again    SUBS   R0,R0,#1
turn     DCD    &1AFFFFFD,&E25EF004
