; A routine that calls another and keeps no R14 goes back to itself.
start    MOV    R12,R14
         BL     outer
         SUBS   PC,R12,#4
outer    BL     inner
         MOV    PC,R14
inner    MOV    PC,R14
