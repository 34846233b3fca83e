; Writes the digits 0 to 9 to its console, by function 2.

bdos    equ     0005h

        org     0100h

        ld      e,'0'
next:
        push    de
        ld      c,2             ; console output
        call    bdos
        pop     de
        inc     e
        ld      a,e
        cp      '9'+1
        jr      nz,next
        ld      e,13
        ld      c,2
        call    bdos
        ld      e,10
        ld      c,2
        call    bdos
        ld      c,0             ; system reset
        call    bdos
