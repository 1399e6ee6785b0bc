; The shortest handler: it returns from the interrupt.
         ORG    4
start    SUBS   PC,R14,#4
