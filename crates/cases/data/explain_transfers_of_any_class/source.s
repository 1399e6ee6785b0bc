; A block stored and loaded; the statement does not say where.
start    STMFD  R13!,{R0-R3}
         LDMFD  R13!,{R0-R3}
         SUBS   PC,R14,#4
