; Both handlers have an exit among the addresses of their loop.
         ORG    &1C
fiq      TST    R8,#1
         BNE    out
round    SUBS   R9,R9,#1
         BEQ    out
         B      on
out      SUBS   PC,R14,#4
on       TST    R9,#2
         BNE    round
         B      out
         ORG    &8000
start    CMP    R0,#0
         BEQ    exit
again    SUBS   R0,R0,#1
         BEQ    exit
         TST    R1,R0
         BNE    odd
         B      again
exit     MOV    R0,#0
         STR    R0,[R12]
         SUBS   PC,R14,#4
odd      MUL    R2,R1,R3
turn     B      again
