 DCD 1 
