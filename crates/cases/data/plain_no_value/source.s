 MOV R0,#-8/2
