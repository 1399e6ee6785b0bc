; Goes past a software interrupt, and returns from the interrupt.
start    CMP    R0,#0
over     BEQ    end
         SWI    5
         MOV    R1,#1
end      SUBS   PC,R14,#4
