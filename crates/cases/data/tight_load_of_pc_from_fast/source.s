start    LDR    PC,[R0]
