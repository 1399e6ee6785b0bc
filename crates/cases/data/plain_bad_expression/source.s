 MOV R0,#(1+2
