; reverse.bin: turns a text round in its place, the outer bytes first, and writes it by function 9.

kernel: equ     0005h           ; the function in C, its parameter in DE or E

        org     0100h
        ld      hl,text
        ld      de,behind-1
swap:   ld      b,(hl)
        ld      a,(de)
        ld      (hl),a
        ld      a,b
        ld      (de),a
        inc     hl
        dec     de
        push    hl
        or      a               ; clears C
        sbc     hl,de           ; borrows while HL is below DE
        pop     hl
        jr      c,swap
        ld      de,text
        ld      c,9
        call    kernel
        ld      c,0             ; the end
        jp      kernel

text:   db      'desrever si txet sihT'
behind: db      13,10,'$'
