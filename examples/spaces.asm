; spaces.bin: counts the spaces of a text 50 times, and would write `Counted` then. It has a fault, which README.md finds.

kernel: equ     0005h           ; the function in C, its parameter in DE

        org     0100h
        jp      begin

text:   db      'A program that runs for a while and then stops has often '
        db      'written to a place that was not its own. Where it stops '
        db      'tells little of where it went wrong, since what it '
        db      'overwrote may well be met only much later.',0
counted: db     'Counted',13,10,'$'
rounds: db      50

begin:  ld      sp,top
again:  ld      hl,text
        ld      de,0            ; so many spaces
next:   ld      a,(hl)
        or      a
        jr      z,last
        call    space
on:     inc     hl
        jr      next
found:  inc     de
        jr      on

last:   ld      hl,rounds
        dec     (hl)
        jr      nz,again
        ld      de,counted
        ld      c,9
        call    kernel
        ld      c,0             ; the end
        jp      kernel

space:  cp      ' '
        jp      z,found         ; so it does not return
        ret

stack:  ds      256             ; 128 words
top:
