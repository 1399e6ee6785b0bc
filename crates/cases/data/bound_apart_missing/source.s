; Counts down, and goes to one exit from before the loop and from inside it. The exit lies among the loop's addresses.
start    CMP    R0,#0
         BEQ    exit
again    SUBS   R0,R0,#1
         BEQ    exit
         TST    R1,R0
         BNE    odd
         B      again
exit     MOV    R0,#0
         STR    R0,[R12]
         SUBS   PC,R14,#4
odd      MUL    R2,R1,R3
turn     B      again
