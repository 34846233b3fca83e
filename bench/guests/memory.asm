; A copy of 4,096 bytes, byte by byte.

        org     0100h

start:  ld      hl,4000h
        ld      de,8000h
        ld      bc,1000h
next:   ld      a,(hl)
        ld      (de),a
        inc     hl
        inc     de
        dec     bc
        ld      a,b
        or      c
        jr      nz,next
        jr      start
