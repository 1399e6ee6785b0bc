; Numbers that are loaded, in ObjAsm's dialect.
io       EQU    &3310000
count    EQU    4
buf      RN     10
start    LDR    R12,=io
         LDR    buf,=buffer
         LDRNE  R0,=count * 4
         ldr    r1,=-count
         LDR    R2, = &3310000
         LDRLO  PC,=buffer
         END
