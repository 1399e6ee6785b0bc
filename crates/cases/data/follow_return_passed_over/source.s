; The jump by a table is passed over, so nothing is said of it.
start    ADDEQ  PC,PC,R0,LSL #2
         SUBS   PC,R14,#4
