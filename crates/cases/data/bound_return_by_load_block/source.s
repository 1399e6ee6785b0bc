         LDMIA  R0!,{PC}
