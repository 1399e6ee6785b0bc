 ORG &1C
fiq B fiq
