         ORG    &80F8
start    MOV    R0,#3
