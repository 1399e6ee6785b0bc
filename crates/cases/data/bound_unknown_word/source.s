         ORG    &8000
         FROB
