; Holds its console for ever, and takes each key as it is; it shows it in hexadecimal digits.

bdos    equ     0005h

        org     0100h

        ld      c,146           ; attach console
        call    bdos
key:
        ld      c,3             ; raw console input
        call    bdos
        ld      a,l
        call    tell_byte
        ld      c,146           ; attach console
        call    bdos
        jr      key

        include "tell.inc"
