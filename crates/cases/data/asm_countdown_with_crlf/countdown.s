; a countdown
 MOV R0,#3
again SUBS R0,R0,#1
 BNE again
 SUBS PC,R14,#4