 MOVEQS R0,R1
 sbcs r0,r1,r2
 TEQPLP R0,R1
here BLS here
there BLLS there
 LDRLTT R0,[R1],#0
