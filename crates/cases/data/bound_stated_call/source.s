start    MOV    PC,R0
         SUBS   PC,R14,#4
routine  MOV    PC,R14
