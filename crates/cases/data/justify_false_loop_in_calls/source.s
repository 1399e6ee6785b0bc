; A routine that is called with two counts, and has one of its own.
start    MOV    R8,R14
         MOV    R0,#3
         BL     part
         MOV    R0,#5
         BL     part
         SUBS   PC,R8,#4
part     MOV    R1,#3
given    SUBS   R0,R0,#1
g_turn   BNE    given                   ; twice, and four times
own      SUBS   R1,R1,#1
o_turn   BNE    own                     ; twice
         MOV    PC,R14
