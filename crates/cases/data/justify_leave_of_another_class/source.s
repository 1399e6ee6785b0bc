; Leaves for ROM, for a word of its own, and for RAM outside, and is stated to leave for ROM alone.
start    MOV    R1,#&3800000
         TST    R0,#1
         MOVEQ  PC,R1
         TST    R0,#2
         MOVEQ  PC,#&9000
         ADR    R1,other
leave    MOV    PC,R1
other    SUBS   PC,R14,#4
