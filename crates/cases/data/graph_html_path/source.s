; A greatest walk that goes past three words, and data that no walk reaches.
start	TST    R0,#1
	BNE    quick		; to the shorter way
	LDR    R1,[R2]         ; from a device, which takes longer than anything else that is done here
turn     SUBS   R1,R1,#1
back     BNE    turn
         SUBS   PC,R14,#4
quick    MOV    R1,#1
         MOV    R2,#2

         SUBS   PC,R14,#4
table    DCD    1,2
         DCD    3
