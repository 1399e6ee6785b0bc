         ORG    4
         DCD    1
         ORG    0
         DCD    2
