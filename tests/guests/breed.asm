; Creates processes for ever, each of which does the same.

bdos    equ     0005h

        org     0100h

breed:
        ld      de,descriptor
        ld      c,144           ; create process
        call    bdos
        jr      breed

descriptor:
        dw      0
        db      0,200
        dw      stack
        db      "BREED   ",0,0,0,0
        ds      64,0
stack:  dw      breed
