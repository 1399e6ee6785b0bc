        DCD   1
        DCD   2
        ORG   &3800000
        DCD   3
        DCD   4
