; A branch that is taken or passed over: both ways meet again.
start    SUBS   R0,R0,#1
         BEQ    done
         MOV    R0,#3
done     SUBS   PC,R14,#4
