a EQU b
b EQU a
