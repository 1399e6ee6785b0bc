; The serial port (a 6551) with two ring buffers of 64 bytes. A ring's block has the place of the next byte in, the place of
; the next byte out, and the bytes; it is empty where the two are equal, and full where one more would make them equal.

         ORG    &18
irq      B      serial

         ORG    &8000
serial   SUB    R14,R14,#4              ; where the interrupted program goes on
save     STMFD  R13!,{R0-R6,R14}
         MOV    R6,#&3300000
         ORR    R6,R6,#&B0000           ; 33B0000, the 6551
ask      LDRB   R0,[R6,#4]              ; status: bit 3 a byte has come, bit 4 one can be sent
         TST    R0,#8
         BEQ    sending

; A byte has come: it goes into the first ring, or is lost where that is full.
take     LDRB   R1,[R6]
         ADR    R5,received
places   LDMIA  R5,{R2,R3}              ; in and out
         ADD    R4,R2,#1
         AND    R4,R4,#63
         TEQ    R4,R3
         BEQ    lost
         ADD    R2,R2,#8
put      STRB   R1,[R5,R2]
came     STR    R4,[R5]

; One can be sent: the next one of the second ring goes out, if there is one.
sending  TST    R0,#&10
         BEQ    leave
         ADR    R5,to_send
ends     LDMIA  R5,{R2,R3}
         TEQ    R2,R3
         BEQ    idle
         ADD    R4,R3,#8
get      LDRB   R1,[R5,R4]
send     STRB   R1,[R6]
         ADD    R3,R3,#1
         AND    R3,R3,#63
went     STR    R3,[R5,#4]
leave    LDMFD  R13!,{R0-R6,PC}^

lost     LDR    R1,losses
         ADD    R1,R1,#1
more     STR    R1,losses
         B      sending

idle     MOV    R1,#&9                  ; command: on, interrupt at a received byte alone
quiet    STRB   R1,[R6,#8]
         B      leave

losses   DCD    0
         DCD    0
received DCD    4,5                     ; in and out: full
         DCD    0,0,0,0,0,0,0,0,0,0,0,0,0,0,0,0
to_send  DCD    2,1
         DCD    &00004241,0,0,0,0,0,0,0,0,0,0,0,0,0,0,0
