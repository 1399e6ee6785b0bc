 LDR R0,=&12345
literal_1 DCD 7
 END
