; Sound: MEMC has begun to play one of two buffers, and the other one is filled with 32 samples meanwhile. Each is mixed of
; two voices, whose saw teeth are multiplied by their loudness, 0 to 127.

         ORG    &18
irq      B      sound

         ORG    &8000
sound    SUB    R14,R14,#4              ; where the interrupted program goes on
save     STMFD  R13!,{R0-R11,R14}
         ADR    R9,voices
where    LDR    R10,[R9,#24]            ; the free buffer's block
first    LDR    R8,[R10]
state    LDMIA  R9,{R0-R5}              ; phase, step and loudness of each voice
         MOV    R6,#32
mix      ADD    R0,R0,R1
         MOV    R7,R0,LSR #24
         MUL    R11,R7,R2
         ADD    R3,R3,R4
         MOV    R7,R3,LSR #24
         MLA    R14,R7,R5,R11
         MOV    R14,R14,LSR #8
put      STRB   R14,[R8],#1
         SUBS   R6,R6,#1
turn     BNE    mix
keep     STMIA  R9,{R0-R5}
play     LDMIB  R10,{R0-R2}             ; MEMC's addresses for start and end, and the other block
start    STR    R0,[R0]                 ; MEMC takes its value from the address alone
end      STR    R0,[R1]
swap     STR    R2,[R9,#24]
leave    LDMFD  R13!,{R0-R11,PC}^

voices   DCD    0,&01B4E81B,100         ; phase, step, loudness
         DCD    0,&02492492,64
         DCD    block_1                 ; of the free buffer
block_1  DCD    &20000,&3688000,&36A8004,block_2
block_2  DCD    &20020,&3688008,&36A800C,block_1
