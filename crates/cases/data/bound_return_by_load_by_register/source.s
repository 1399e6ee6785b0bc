         LDR    PC,[R0,R1]
