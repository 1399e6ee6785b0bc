; FIQ's handler returns at once. The other counts down from 3, and returns from the interrupt.
         ORG    &1C
fiq      SUBS   PC,R14,#4
         ORG    &8000
start    MOV    R0,#3
again    SUBS   R0,R0,#1
turn     BNE    again
         SUBS   PC,R14,#4
