; The exit is reached from inside the loop alone, so that it may be part of it or not.
start    MOV    R0,#3
again    SUBS   R0,R0,#1
         BEQ    exit
         B      turn
exit     MOV    R1,#0
         SUBS   PC,R14,#4
turn     TST    R1,#1
         B      again
