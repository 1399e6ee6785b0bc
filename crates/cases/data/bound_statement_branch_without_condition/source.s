; Words under AL and NV have no other way.
start    MOV    R0,#1
         MOVNV  R0,#2
         SUBS   PC,R14,#4
