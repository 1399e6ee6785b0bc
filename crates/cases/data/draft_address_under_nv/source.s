start    SUBNV  R14,PC,#8
         LDRNV  R14,[PC,#-12]
         MOVNV  R14,PC
         LDREQ  PC,[R5]
back     MOVS   PC,R14
