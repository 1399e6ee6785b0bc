n EQU 1
 [ n
 ]
