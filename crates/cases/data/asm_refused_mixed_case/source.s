 Dcd 1
