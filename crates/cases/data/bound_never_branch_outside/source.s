start    BNV    &8008
         SUBS   PC,R14,#4
