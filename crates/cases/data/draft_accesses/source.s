; A device's byte is stored on the stack, and then chooses one of the branches after the jump.
start    MOV    R1,#&3200000
read     LDRB   R0,[R1]
save     STR    R0,[R13]
jump     ADD    PC,PC,R0,LSL #2
         DCD    0
         B      start
         B      done
done     SUBS   PC,R14,#4
