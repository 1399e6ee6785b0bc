         ORG    12
         DCD    1
         ORG    0
         DCD    2,3
         DCD    4
