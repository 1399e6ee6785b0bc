; A change of a quadrature input moves the pointer, within its limits.
xmax    *       1279
ymax    *       1023
both    *       xmax + ymax
        ASSERT  both < 4096
        ASSERT  both > &8FE - 1
ws      RN      12
        ^       0,ws
xpos    #       4
ypos    #       4
buttons #       1
        #       3
speed   #       4
        ORG     &8000
move    STMFD   R13!,{R0-R3,R12,R14}
        LDR     ws,=&18000
        LDR     R0,xpos
        LDR     R1,speed
        ADDS    R0,R0,R1,LSL #2
        MOVMI   R0,#0
        LDR     R2,=xmax
        CMP     R0,R2
        MOVGT   R0,R2
        STR     R0,xpos
        LDR     R0,ypos
        SUBS    R0,R0,R1,ASR #1
        MOVLT   R0,#0
        LDR     R2,=ymax
        CMP     R0,R2
        MOVGT   R0,R2
        STR     R0,ypos
        LDRB    R3,buttons
        CMP     R3,#-1
        BICNE   R3,R3,#&FFFFFFF0
        STRB    R3,buttons
        LDMFD   R13!,{R0-R3,R12,PC}^
        END
