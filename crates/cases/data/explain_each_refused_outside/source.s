; A dispatcher that R0 picks one of four ways of: to wait and pick again, or to end.
start    MOV    R3,#0
pick     ADD    PC,PC,R0,LSL #2
         DCD    0
wait     B      pick
quick    SUBS   PC,R14,#4
slow     MUL    R2,R3,R4
         SUBS   PC,R14,#4
