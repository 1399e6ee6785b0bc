 MOV R0,#&10   ; sixteen
 DCD &FF, 0x10 ,7 ; three
 LDR R0,[R1,#&10 ]
 LDR R0,[R1],#4294967292
ff EQU &FF
 SWI &11 ; stop
 DCD 2_11
