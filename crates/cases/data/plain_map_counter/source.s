a EQU 4
b EQU {VAR}
