         DCD    1
         ORG    &9000
         DCD    2
