; Reads IOC and writes a buffer by bases that are stated otherwise, and where that is not known or not so.
start    MOV    R1,#&3200000
         LDRB   R0,[R1,#&14]
         TST    R0,#1
some     LDRNE  R2,[R1,#&10]            ; not always done
         MOV    R3,#&3200000
         ORR    R3,R3,#&4000
         MOV    R4,#2
next     STRB   R0,[R3],#4              ; three words on
         SUBS   R4,R4,#1
turn     BNE    next
save     STMFD  R13!,{R0,R1}
over     LDMIA  R5,{R0,R1}              ; its first word is known to be in ROM
         LDMFD  R13!,{R0,R1}
any      STR    R0,[R12]                ; of all addresses
         STR    R0,[R12,#4]
         SUBS   PC,R14,#4
