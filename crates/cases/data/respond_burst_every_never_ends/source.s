; FIQ's handler reads three bytes of a device.
         ORG    &1C
fiq      MOV    R9,#3
again    LDRB   R8,[R12]
         SUBS   R9,R9,#1
turn     BNE    again
done     SUBS   PC,R14,#4
