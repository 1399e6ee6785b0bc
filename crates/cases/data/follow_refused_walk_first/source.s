start    B      start
