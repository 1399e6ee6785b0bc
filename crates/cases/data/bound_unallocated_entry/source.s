         ORG    &1C
fiq      DCD    &E3000000       ; TST without its S
