; The store puts logical page 8 on physical page 5, where logical page 5 was.
        ORG   &1000
        STR   R1,[R0]
        ORG   &5000
        DCD   55
        ORG   &8000
        DCD   88
