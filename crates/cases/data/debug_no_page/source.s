         ORG    &80000
         DCD    0
