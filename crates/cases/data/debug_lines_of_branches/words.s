; Stores one word after the other at 8000, where each is shown.
        ORG   &9000
        LDR   R0,[R1],#4
        STR   R0,[R2]
        LDR   R0,[R1],#4
        STR   R0,[R2]
        LDR   R0,[R1],#4
        STR   R0,[R2]
        LDR   R0,[R1],#4
        STR   R0,[R2]
        LDR   R0,[R1],#4
        STR   R0,[R2]
        ORG   &A000
        DCD   &1AFFFFFD
        DCD   &EAFFFFFE
        DCD   &9BFFFFFE
        DCD   &EAFFDFFE
        DCD   &EAFFDFFD
