n EQU 4
 MOV R0,#n>=4
