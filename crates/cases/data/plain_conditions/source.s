; A driver for two cards, of which one is built.
card     EQU    2
         [      card = 1
base     EQU    &3000000
status   EQU    4
         |
base     EQU    &3240000
         [      card > 2 :LOR: card < 1
         GET    Other:
         ELSE
status   EQU    8
         ENDIF
         ]
         IF     base = &3000000
         [      there is no such expression ! ]
         |      ; not of the line above
take     LDRB   R0,[R10,#status]
         ]
         MOV    R1,#1
         END
         ELSE
take     LDRB   R0,[R10,#status + 1]
         ENDIF  ; of the base
         [      status = 8
         MOV    R2,#status
]
         DCD    base
         END
         [
