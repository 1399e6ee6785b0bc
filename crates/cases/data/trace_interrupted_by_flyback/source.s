; A program that waits for an interrupt.
         ORG    &8000
wait     B      wait
