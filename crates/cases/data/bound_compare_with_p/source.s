         TEQP   PC,R14
