; The copy of memory.asm by LDIR, of which each step does one byte.

        org     0100h

start:  ld      hl,4000h
        ld      de,8000h
        ld      bc,1000h
        ldir
        jr      start
