; In SVC mode: IOC lets A0 through, and IRQ mode goes on at 8000 with nothing masked.
        ORG   &9000
        MOV   R0,#&3200000
        MOV   R1,#&10000
        STR   R1,[R0,#&18]
        MOVS  PC,R14
