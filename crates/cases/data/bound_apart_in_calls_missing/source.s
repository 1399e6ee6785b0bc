; A routine that is called twice. Its exit lies among its loop's addresses, and calls another routine.
start    MOV    R5,R14
         BL     scan
         BL     scan
         SUBS   PC,R5,#4
scan     MOV    R6,R14
         CMP    R0,#0
         BEQ    exit
again    SUBS   R0,R0,#1
         BEQ    exit
         BL     count
         B      turn
exit     BL     count
         MOV    PC,R6
turn     TST    R0,#1
         BNE    again
         B      exit
count    ADD    R1,R1,#1
         MOV    PC,R14
