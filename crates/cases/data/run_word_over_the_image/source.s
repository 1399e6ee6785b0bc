; The machine file puts another word over the first.
         MOV    R0,#3
         MOV    R1,#4
