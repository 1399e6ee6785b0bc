start    B      &8008           ; where there is no word
