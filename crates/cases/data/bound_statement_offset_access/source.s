; Counts down from 3, goes on by a table, and keeps a word.
start    MOV    R0,#3
again    SUBS   R0,R0,#1
turn     BNE    again
         ADD    PC,PC,R0,LSL #2
         MOV    R0,R0
         B      done
done     STR    R0,[R2]
         SUBS   PC,R14,#4
