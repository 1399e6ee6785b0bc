 LDR R0,=nowhere
 MOV PC,R14
 END
