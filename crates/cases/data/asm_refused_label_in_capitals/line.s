again SUBS R0,R0,#1
 BNE Again
