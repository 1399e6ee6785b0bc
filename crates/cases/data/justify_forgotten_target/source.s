; Goes on at a word of its own, of which nothing is stated.
start    ADR    R0,there
         MOV    PC,R0
there    SUBS   PC,R14,#4
