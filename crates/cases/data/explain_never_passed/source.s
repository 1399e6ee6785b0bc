; The way past the load is shorter, so the greatest walk never passes its return.
start    TST    R0,#1
         BNE    quick
         LDR    R1,[R2]
         SUBS   PC,R14,#4
quick    SUBS   PC,R14,#4
