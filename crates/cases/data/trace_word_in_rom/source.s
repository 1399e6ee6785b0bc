; No word: the machine file puts both into ROM.
