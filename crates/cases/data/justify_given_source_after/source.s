        FROB
