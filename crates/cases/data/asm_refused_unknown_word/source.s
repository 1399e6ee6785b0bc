label FROB
