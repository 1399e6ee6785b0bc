; The shortest handler: it returns from the interrupt.
         ORG    &1C
fiq      SUBS   PC,R14,#4
