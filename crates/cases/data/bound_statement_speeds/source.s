start    LDR    R0,[R1]
block    LDMIA  R2,{R3,R4}
put      STR    R0,[R5]
puts     STMIA  R6,{R3,R4}
         SUBS   PC,R14,#4
