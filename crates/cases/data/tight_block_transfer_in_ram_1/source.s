start    STMFD  R13!,{R0-R3}
back     LDMFD  R13!,{R0-R3}
         SUBS   PC,R14,#4
