start    MOV    R0,#3
again    MOV    R14,PC
         LDMFD  R13!,{PC}
         STR    R0,[R1]
         SUBS   R0,R0,#1
         BNE    again
done     LDMFD  R13!,{PC}
