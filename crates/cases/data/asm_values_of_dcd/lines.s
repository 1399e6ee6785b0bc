loop dcd 1 , &Ff,end ; three
end dcd loop
