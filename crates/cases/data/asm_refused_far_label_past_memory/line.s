 B far
 ORG &3FFFFFC
 DCD 0
far
