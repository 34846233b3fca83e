; Writes a string that has no end: there is no dollar sign in its segment, and none in common memory. So 65,536 bytes are
; written, and then `done`. It has no tab and no LF: 9 is 11 less 2, and the text is kept with its bits turned.

bdos    equ     0005h

        org     0100h

        ld      de,0
        ld      c,11
        dec     c
        dec     c               ; print string
        call    bdos
        ld      hl,text
again:
        ld      a,(hl)
        cpl
        or      a
        jr      z,ended
        ld      e,a
        ld      c,2             ; console output
        push    hl
        call    bdos
        pop     hl
        inc     hl
        jr      again
ended:
        ld      c,0             ; system reset
        jp      bdos

text:   db      255-'d',255-'o',255-'n',255-'e',255-13,255-10,255
