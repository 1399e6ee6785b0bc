; The loop is left in its middle. Three rounds and the way on to the branch back would cost 92, and do not end.
start    SUBS   R0,R0,#1
         BEQ    done
         MUL    R2,R3,R4
turn     B      start
done     SUBS   PC,R14,#4
