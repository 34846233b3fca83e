; Creates processes by a descriptor that is linked to itself, and writes the answer. A process that was made would write `x`.

bdos    equ     0005h

        org     0100h

        ld      de,descriptor
        ld      c,144           ; create process
        call    bdos
        call    tell_word
        call    tell_end
        ld      de,10
        ld      c,141           ; delay
        call    bdos
        ld      c,0             ; system reset
        jp      bdos
child:
        ld      a,'x'
        call    tell_letter
        ld      c,0             ; system reset
        jp      bdos

descriptor:
        dw      descriptor
        db      0,200
        dw      stack
        db      "CHILD   ",0,0,0,0
        ds      32,0
stack:  dw      child

        include "tell.inc"
