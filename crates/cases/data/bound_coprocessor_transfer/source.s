start    DCD    &EC000000       ; STC
