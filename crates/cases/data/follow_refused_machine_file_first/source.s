start    SUBS   PC,R14,#4
         ORG    &80000
         DCD    2
