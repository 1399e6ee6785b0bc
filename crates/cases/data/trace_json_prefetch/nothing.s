; No word: no page lies at 1000000.
