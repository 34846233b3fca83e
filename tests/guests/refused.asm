; Makes a file on drive B, and writes the answer.

bdos    equ     0005h

        org     0100h

        ld      de,fcb
        ld      c,22            ; make file
        call    bdos
        call    tell_word
        call    tell_end
        ld      c,0             ; system reset
        jp      bdos

fcb:    db      2,"NEW     FIL"
        ds      24,0

        include "tell.inc"
