; Writes a word, and returns from the interrupt.
start    STR    R0,[R1]
         SUBS   PC,R14,#4
