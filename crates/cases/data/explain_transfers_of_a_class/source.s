; A block stored on the stack, in RAM, and loaded; of the second word nothing is stated.
start    STMFD  R13!,{R0-R3}
         LDMFD  R13!,{R0-R3}
         SUBS   PC,R14,#4
