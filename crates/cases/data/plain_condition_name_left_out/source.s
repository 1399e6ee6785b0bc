 [ 1=2
n EQU 1
 ]
 MOV R0,#n
