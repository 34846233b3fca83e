; One call of the kernel over and over, which writes nothing: the version.

        org     0100h

start:  ld      c,12
        call    0005h
        jr      start
