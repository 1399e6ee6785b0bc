 DCD 1,&FFFFFFFF,end
; nothing
end
 ORG &9000
here B here
