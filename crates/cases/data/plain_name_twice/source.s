n EQU 4
n * 4
