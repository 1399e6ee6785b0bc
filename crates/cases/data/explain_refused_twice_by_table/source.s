start    MOV    R0,#0
table    LDR    PC,[R1,R0,LSL #2]
one      SUBS   PC,R14,#4
two      SUBS   PC,R14,#4
