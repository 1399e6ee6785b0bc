         FROB
