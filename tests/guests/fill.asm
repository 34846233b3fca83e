; Fills the disk: writes a file until no block is left, makes files until the directory is full, and goes on trying for ever. It writes
; the answers of the last write and the last making, and how many files it made.

bdos    equ     0005h

        org     0100h

        ld      de,fcb
        ld      c,22            ; make file
        call    bdos
write:
        ld      de,fcb
        ld      c,21            ; write sequential
        call    bdos
        ld      a,h
        or      l
        jr      z,write
        call    tell_word
        call    tell_space
make:
        ld      hl,(made)
        inc     hl
        ld      (made),hl
        ld      a,h
        call    digits
        ld      (other + 5),hl
        ld      a,(made)
        call    digits
        ld      (other + 7),hl
        ld      hl,0
        ld      (other + 12),hl
        ld      (other + 14),hl
        ld      de,other
        ld      c,22            ; make file
        call    bdos
        push    hl
        ld      de,other
        ld      c,16            ; close file
        call    bdos
        pop     hl
        ld      a,h
        or      l
        jr      z,make
        call    tell_word
        call    tell_space
        ld      hl,(made)
        dec     hl
        call    tell_word
        call    tell_end
again:
        ld      de,fcb
        ld      c,21            ; write sequential
        call    bdos
        ld      de,other
        ld      c,22            ; make file
        call    bdos
        jr      again

; The two hexadecimal digits of A as letters from A on: the first in L, the second in H.
digits:
        ld      l,a
        and     0Fh
        add     a,'A'
        ld      h,a
        ld      a,l
        rrca
        rrca
        rrca
        rrca
        and     0Fh
        add     a,'A'
        ld      l,a
        ret

made:   dw      0
fcb:    db      0,"FULL    DAT"
        ds      24,0
other:  db      0,"MORE    DAT"
        ds      24,0

        include "tell.inc"
