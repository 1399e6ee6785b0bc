a EQU b + 1
f RN last
b EQU 2
last EQU 12
 MOV f,#a
