n EQU 0
 MOV R0,#8/n
