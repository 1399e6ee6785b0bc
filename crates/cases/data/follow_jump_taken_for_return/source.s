; A jump by a table, of which the statement says nothing.
start    ADD    PC,PC,R0,LSL #2
         DCD    0
         B      first
first    B      first
