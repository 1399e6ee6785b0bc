; Takes a byte from the disc controller, in ObjAsm's dialect.
io       *      &3300000
fdc      *      1 :SHL: 16
data     EQU    3 * 4
ptr      RN     10
start    MOV    R12,#io
         ORR    R12,R12,#fdc
take     LDRB   R8,[R12,#data]
         STRB   R8,[ptr],#1
         CMP    ptr,#-1
         SUBLOS PC,R14,#4
         SUBS   PC,R14,#4
