start    MOV    R0,#3           ; and no word after it
