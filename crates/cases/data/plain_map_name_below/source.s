a # n
n EQU 4
