start    ADR    R1,table
         LDR    PC,[R1,R0,LSL #2]
table    DCD    first,second
first    STR    R0,[R13]
         SUBS   PC,R14,#4
second   MOV    R2,#4
again    SUBS   R2,R2,#1
turn     BNE    again
         SUBS   PC,R14,#4
