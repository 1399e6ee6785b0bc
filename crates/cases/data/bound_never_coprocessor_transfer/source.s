start    DCD    &FC000000       ; STC
         SUBS   PC,R14,#4
