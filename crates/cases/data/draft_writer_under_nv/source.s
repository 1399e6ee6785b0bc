start    MOVNV  PC,R5
         LDRNV  PC,[R13],#4
back     MOVS   PC,R14
