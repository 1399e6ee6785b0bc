 [ 1=1
 MOV R0,#1
 END
 ]
