start    BL     start
