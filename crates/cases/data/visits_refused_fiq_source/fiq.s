 ORG &1C
fiq FROB
