start MOV R0,#0
again SUBS R0,R0,#1 ; a comment that goes on and on past the end
turn BNE again
 SUBS PC,R14,#4
