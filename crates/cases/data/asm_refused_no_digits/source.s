 DCD &
