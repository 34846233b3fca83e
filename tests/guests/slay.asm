; Aborts everybody it can name, on each of sixteen consoles, and then by the address of each process's descriptor but its own, which
; is that of slot 4. It writes the low byte of each answer.

bdos    equ     0005h

        org     0100h

        ld      hl,names
named:
        ld      a,(hl)
        or      a
        jr      z,slots
        ld      de,block + 4
        ld      bc,8
        ldir
        push    hl
        ld      b,0             ; the console
console:
        ld      a,b
        ld      (block + 12),a
        push    bc
        call    abort
        pop     bc
        inc     b
        ld      a,b
        cp      16
        jr      nz,console
        call    tell_end
        pop     hl
        jr      named
slots:
        ld      hl,0F800h
slot:
        ld      (block),hl
        push    hl
        ld      de,0F800h + 4 * 52
        or      a
        sbc     hl,de
        call    nz,abort
        pop     hl
        ld      de,52
        add     hl,de
        ld      a,h
        cp      0FEh            ; F800h + 32 x 52 is FE80h
        jr      c,slot
        ld      a,l
        cp      80h
        jr      c,slot
        call    tell_end
        ld      c,0             ; system reset
        jp      bdos

abort:
        ld      de,block
        ld      c,157           ; abort specified process
        call    bdos
        ld      a,l
        jp      tell_byte

names:  db      "cli     ","Tmp0    ","Tmp1    ","WITNESS ","NOBODY  ",0
block:  ds      13,0

        include "tell.inc"
