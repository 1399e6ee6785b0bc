; Where Z is clear the word that clears F is passed over, and F stays set up to the next one.
irq      TEQP   PC,#&0C000002
         TST    R0,#1
         TEQEQP PC,#&08000002
         MUL    R0,R1,R2
         TEQP   PC,#&08000002
         SUBS   PC,R14,#4
