; A program that waits, and the handler of the timer that interrupts it.
         ORG    &18
         B      tick

         ORG    &8000
wait     B      wait
tick     STMFD  R13!,{R0,R1}
         MOV    R1,#&3200000
         LDRB   R0,[R1,#&14]            ; IRQ A's requests that are not masked
         STRB   R0,[R1,#&14]            ; they are seen
         LDMFD  R13!,{R0,R1}
         SUBS   PC,R14,#4
