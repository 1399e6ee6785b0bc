 NOP ; nothing
 NOP R0
