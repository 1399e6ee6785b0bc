n * 4
 MOV R0,#n