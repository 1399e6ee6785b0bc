; Reads IOC's registers, and what the timers' counts are in the meantime.
         ORG    &8000
         MOV    R0,#&3200000
         LDRB   R1,[R0,#&10]            ; IRQ A's status, its requests and the three masks
         LDRB   R2,[R0,#&14]
         LDRB   R3,[R0,#&18]
         LDRB   R4,[R0,#&28]
         LDRB   R5,[R0,#&38]
         STRB   R0,[R0,#&4C]            ; the count of timer 0
         LDRB   R6,[R0,#&40]
         LDRB   R7,[R0,#&44]
         STRB   R0,[R0,#&5C]            ; and of timer 1
         LDRB   R8,[R0,#&50]
         LDRB   R9,[R0,#&54]
