a EQU 1
b EQU a+b
