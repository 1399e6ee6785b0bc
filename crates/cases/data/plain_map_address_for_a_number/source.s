 ^ 0,R12
a # 4
 MOV R0,#a+4
