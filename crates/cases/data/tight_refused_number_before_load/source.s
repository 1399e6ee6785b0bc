start    SUBS   PC,R14,#4
         ORG    &2400000
         DCD    0
