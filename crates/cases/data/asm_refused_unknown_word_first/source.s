
 MOVX
 DCD x
