; Goes where R1 says, and returns from the interrupt.
start    MOV    PC,R1
one      SUBS   PC,R14,#4
two      SUBS   PC,R14,#4
