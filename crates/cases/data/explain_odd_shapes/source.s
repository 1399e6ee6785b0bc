; Words that write R15 from R14 or by R13, but not as returns do, and one that returns.
start    TST    R0,#1
         SUBNE  PC,R14,R0
         LDRCS  PC,[R13,R0,LSL #2]
         MOVMI  PC,R14,LSL #1
         LDRVS  PC,[R13],#4
         SUBS   PC,R14,#4
