 DCD +1
