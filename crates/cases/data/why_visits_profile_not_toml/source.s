         ORG    &1C
fiq      B      fiq
         ORG    &8000
start    SUBS   PC,R14,#4
