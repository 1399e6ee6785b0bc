r RN 4
 LDR R0,=r
 END
