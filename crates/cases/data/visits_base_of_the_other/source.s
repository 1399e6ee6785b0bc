; Each handler has a transfer by a register, a multiply, and a word with a condition of which the statement says more.
         ORG    &1C
fiq      LDRB   R8,[R12,#4]
scale    MUL    R9,R8,R10
         STR    R9,[R11]
odd      SWINE  1
         SUBS   PC,R14,#4
         ORG    &8000
start    LDR    R1,[R12]
mul      MUL    R2,R1,R3
over     BCS    past
         SWI    0
         SWI    0
past     SUBS   PC,R14,#4
