; Leaves for an address without a word, and for a word of its own that is stated.
start    TST    R0,#1
         MOVEQ  PC,#&9000
         ADR    R1,other
leave    MOV    PC,R1
other    SUBS   PC,R14,#4
