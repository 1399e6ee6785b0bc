; On the dearest path the store under HI is done and the branch under HI is not taken; and in the last round BNE is
; not taken, but the store under NE after it is done.
irq      MOV     R6,#2
again    CMP     R0,#4
         STMHIIA R1,{R2-R5}
         BHI     next
         MUL     R2,R3,R4
next     SUBS    R6,R6,#1
turn     BNE     again
         STRNE   R2,[R1]
         SUBS    PC,R14,#4
