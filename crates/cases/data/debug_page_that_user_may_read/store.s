; The data abort goes back to the word after the store.
        ORG   &10
        SUBS  PC,R14,#4
; Logical page 8 on physical page 5 at level 1; then User mode stores and loads there.
        ORG   &1000
        STR   R1,[R0]
        TEQP  R15,#0
        STR   R1,[R2]
        LDR   R3,[R2]
