; Writes R1 where Z is set, and returns from the interrupt.
start    MOVEQ  R1,#0
         SUBS   PC,R14,#4
