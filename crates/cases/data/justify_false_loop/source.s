; Counts whose loops are stated with too few turns back, and loops that a word of memory ends, or nothing.
start    MOV    R0,#3
down     SUBS   R0,R0,#1
d_turn   BNE    down                    ; twice
         MOV    R1,#0
up       CMP    R1,#4
         BEQ    outer
         ADD    R1,R1,#1
u_turn   B      up                      ; four times
outer    MOV    R2,#6
inner    SUBS   R2,R2,#2
i_turn   BNE    inner                   ; twice
         SUBS   R3,R3,#1                ; R3 was from 2 to 4
o_turn   BNE    outer                   ; once, twice or three times
poll     LDR    R4,[R5]
         TST    R4,#1
p_turn   BEQ    poll
         TST    R4,#2
         SUBNES PC,R14,#4
stay     B      stay
