; Words that are never carried out: none loads, leaves, or writes R14.
start    LDRNV  R0,[R1]
         ADDNV  PC,PC,R0
         BL     leaf
         MOVNV  R14,R4
         SUBS   PC,R14,#4
leaf     MOV    PC,R14
