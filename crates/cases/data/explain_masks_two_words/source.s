; Two words set F, and a routine goes on while it is set: from the first one up to the word that clears it.
irq      MOV    R4,R14
         TEQP   PC,#&04000002
         BL     count
         TEQP   PC,#&04000002
         MOV    R0,R0
         TEQP   PC,#2
         MOV    PC,R4
count    ADD    R1,R1,#1
         MOV    PC,R14
