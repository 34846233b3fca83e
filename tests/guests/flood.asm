; Writes all of common memory, with another byte each round, for ever.

        org     0100h

round:
        ld      hl,0C000h
        ld      (hl),a
        ld      de,0C001h
        ld      bc,3FFFh
        ldir
        inc     a
        jr      round
