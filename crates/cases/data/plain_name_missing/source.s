n EQU m
m EQU k
k EQU 1
