; The registers of a card, and a workspace behind R12.
wsp      RN     12
         ^      &10
data     #      4
         #      8
status   #      1
mask     FIELD  3
last     #      0
size     EQU    last - data
         MAP    0-4,wsp
before   #      4
count    #      4
buffer   #      size
         ^      8, R11
other    #      0
take     LDRB   R0,[R10,#status]
         LDR    R1,before
         STREQ  R1, count ; counts
         LDRB   R2,other
         ADR    R3,buffer
         ADRNE  R4,other
         LDR    R5,here
here     ADR    R6,here
         DCD    mask,size
