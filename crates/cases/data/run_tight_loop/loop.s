again   SUBS  R0,R0,#1
        B     again
