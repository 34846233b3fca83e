; Sets each byte from F800h on to FFh, asks for its process's descriptor (156) and for the system data page (154), and writes where
; they came and what they say, and then how many of the other bytes aren't FFh any more.

bdos    equ     0005h

        org     0100h

        ld      hl,0F800h
        ld      (hl),0FFh
        ld      de,0F801h
        ld      bc,07FFh
        ldir
        ld      c,156           ; return process descriptor address
        call    bdos
        ld      (descriptor),hl
        ld      b,52
        call    show
        ld      c,154           ; return address of system data page
        call    bdos
        ld      b,24
        call    show
        ld      hl,0F800h
        ld      bc,0            ; how many others aren't FFh
look:
        ld      a,(hl)
        inc     a
        jr      z,next
        ld      a,h
        inc     a
        jr      z,next          ; in the system data page
        push    hl
        ld      de,(descriptor)
        or      a
        sbc     hl,de
        jr      c,other         ; below the descriptor
        ld      de,52
        sbc     hl,de
        jr      c,within
other:
        inc     bc
within:
        pop     hl
next:
        inc     hl
        ld      a,h
        or      l
        jr      nz,look
        ld      h,b
        ld      l,c
        call    tell_word
        call    tell_end
        ld      c,0             ; system reset
        jp      bdos

; Writes HL, and the B bytes from there on.
show:
        push    hl
        push    bc
        call    tell_word
        call    tell_space
        pop     bc
        pop     hl
each:
        ld      a,(hl)
        inc     hl
        push    hl
        push    bc
        call    tell_byte
        pop     bc
        pop     hl
        djnz    each
        jp      tell_end

descriptor:
        dw      0

        include "tell.inc"
