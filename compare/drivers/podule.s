; A block of words from an expansion card, as its status says how many.
podule  *       &3240000
cards   *       podule + 2 * &4000
words   *       8
mask    *       (1 :SHL: words) - 1
r_card  RN      8
r_to    RN      7
        ORG     &8000
block   STMFD   R13!,{R0-R8,R14}
        LDR     r_card,=cards
        LDR     r_to,=&20000 + 4 * words
        LDR     R0,[r_card]
        AND     R0,R0,#mask
        CMP     R0,#words
        BLO     done
loop    LDMIA   r_card,{R1-R4}
        STMIA   r_to!,{R1-R4}
        SUBS    R0,R0,#4
        BGT     loop
done    LDMFD   R13!,{R0-R8,PC}^
        END
