save     STMFD  R13!,{R0-R3}
restore  LDMFD  R13!,{R0-R3}
         SUBS   PC,R14,#4
