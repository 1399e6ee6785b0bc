         LDR    PC,[R0]
