 B nowhere
 LDRB PC,nowhere