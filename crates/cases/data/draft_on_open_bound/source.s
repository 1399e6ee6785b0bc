start    MOV    R0,#3
again    SUBS   R0,R0,#1
turn     BNE    again
poll     LDRB   R1,[R2]
         TST    R1,#1
more     BEQ    poll
done     SUBS   PC,R14,#4
