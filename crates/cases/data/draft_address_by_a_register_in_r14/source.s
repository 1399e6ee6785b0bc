; Of two ways on, that of the number in R0.
start    ADD    R14,PC,R0,LSL #3
         B      work
first    MOV    R1,#1
         B      done
second   MOV    R1,#2
done     LDMFD  R13!,{PC}
work     MOV    R2,#0
         MOV    PC,R14
