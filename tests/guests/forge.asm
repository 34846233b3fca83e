; Reads and writes the witness's file through file control blocks with each handle there is, while the witness has it open, and
; writes how often the answer was 000Ah, of six functions and 255 handles.

bdos    equ     0005h

        org     0100h

        ld      hl,functions
each:
        ld      a,(hl)
        or      a
        jr      z,told
        push    hl
        ld      b,255
handle:
        push    bc
        push    af
        ld      c,a
        ld      a,b
        ld      (fcb + 16),a
        ld      de,fcb
        call    bdos
        ld      de,000Ah
        or      a
        sbc     hl,de
        jr      nz,other
        ld      hl,(count)
        inc     hl
        ld      (count),hl
other:
        pop     af
        pop     bc
        djnz    handle
        pop     hl
        inc     hl
        jr      each
told:
        ld      hl,(count)
        call    tell_word
        call    tell_end
        ld      c,0             ; system reset
        jp      bdos

functions:
        db      20,21,33,34,40,41,0
count:  dw      0
fcb:    db      0,"WITNESS DAT"
        ds      24,0

        include "tell.inc"
