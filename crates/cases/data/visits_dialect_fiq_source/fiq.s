fast     EQU    &1C
link     RN     14
         ORG    fast
fiq      SUBS   PC,link,#4
