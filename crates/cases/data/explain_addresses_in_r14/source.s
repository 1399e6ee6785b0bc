; Returns by R14 after the routine has put something into it.
start    MOV    R5,R14
         CMP    R0,#1
         BEQ    loads
         BCC    other
         BHI    jumps
         MOV    R14,PC
one      MOV    PC,R14
loads    LDR    R14,where
two      MOV    PC,R14
other    LDR    R14,place
three    MOV    PC,R14
jumps    ADR    R14,done
four     MOV    PC,R14
done     MOVS   PC,R5
where    DCD    done
place    DCD    0x9000
