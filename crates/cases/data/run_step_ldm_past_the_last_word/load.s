; The second of two words from the last one on lies at 0.
 ORG 0
 DCD 98
 ORG &8000
 LDMIA R0,{R1,R2}
 ORG &3FFFFFC
 DCD 99
