; A digest over the whole memory.

        org     0100h

start:  ld      hl,0000h
        ld      b,00h
next:   ld      a,d
        add     a,(hl)
        ld      d,a
        adc     a,e
        ld      e,a
        rlca
        xor     (hl)
        ld      c,a
        inc     hl
        ld      a,h
        or      l
        jr      nz,next
        jr      start
