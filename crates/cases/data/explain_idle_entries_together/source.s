; FIQ goes to the routine whose address is kept: its target is not stated, so no routine is reached.
fiq      LDR    PC,[R8]
first    LDRB   R9,[R11]
keep     STRB   R9,[R10]
         SUBS   PC,R14,#4
more     LDRB   R9,[R11]
turn     BNE    more
next     STR    R9,[R10],#4
         SUBS   PC,R14,#4
