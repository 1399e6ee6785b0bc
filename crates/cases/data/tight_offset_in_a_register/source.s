start    DCD    &E79F0FA1        ; LDR R0,[PC,R1,LSR #31]
         SUBS   PC,R14,#4
