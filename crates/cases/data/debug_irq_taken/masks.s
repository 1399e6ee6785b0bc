; In SVC mode, with IRQ and FIQ masked: IOC lets A0 through, and User mode goes on at 9000.
        MOV   R0,#&3200000
        MOV   R1,#&10000
        STR   R1,[R0,#&18]
        MOVS  PC,R14
