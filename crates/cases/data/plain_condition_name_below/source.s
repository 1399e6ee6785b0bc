 [ n = 1
 ]
n EQU 1
