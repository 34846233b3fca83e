; Prints a line, by function 5. The printer becomes its own with the first byte, once nobody else has it.

bdos    equ     0005h

        org     0100h

        ld      hl,line
next:
        ld      a,(hl)
        or      a
        jr      z,finish
        push    hl
        ld      e,a
        ld      c,5             ; list output
        call    bdos
        pop     hl
        inc     hl
        jr      next
finish:
        ld      c,0             ; system reset
        call    bdos

line:
        db      "A program's line",13,10,0
