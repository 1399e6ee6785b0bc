; Goes where a word says, and returns from the interrupt there.
start    LDR    PC,[R1]
         DCD    0
back     SUBS   PC,R14,#4
