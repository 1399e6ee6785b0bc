; 8000 and 2008000 are one place: the word of the higher address is kept.
        ORG   &8000
        DCD   1
        ORG   &2008000
        DCD   2
        ORG   &3800000
        DCD   &12345678
