start    SWI    0
