; Does to the witness's file, which the witness has open in unlocked mode, what it shouldn't: the functions of the table, one after
; another, as long as the witness has its queue, which it deletes before it closes the file. The first time it writes the answer of each.

bdos    equ     0005h

        org     0100h

        ld      e,0FFh
        ld      c,45            ; set BDOS error mode: answers, and reports nothing
        call    bdos
        ld      c,26            ; set DMA address
        ld      de,password
        call    bdos
again:
        ld      hl,table
each:
        ld      c,(hl)
        inc     hl
        ld      e,(hl)
        inc     hl
        ld      d,(hl)
        inc     hl
        push    hl
        ld      a,c
        or      a
        jr      z,first
        di                      ; no other process runs between the two calls
        push    bc
        push    de
        ld      de,queue
        ld      c,135           ; open queue
        call    bdos
        pop     de
        pop     bc
        or      a
        jr      nz,ended
        call    bdos
        ei
        ld      a,(told)
        or      a
        jr      nz,next
        call    tell_word
        call    tell_space
next:
        pop     hl
        jr      each
first:
        pop     hl
        ld      a,(told)
        or      a
        call    z,tell_end
        ld      a,1
        ld      (told),a
        jr      again

ended:
        ld      c,0             ; system reset
        jp      bdos

told:   db      0
queue:  dw      0,0
        db      "WITQ    "
table:
        db      23              ; rename file
        dw      renamed
        db      19              ; delete file
        dw      locked
        db      19              ; delete file: all there are
        dw      all
        db      30              ; set file attributes
        dw      locked
        db      103             ; write file XFCB
        dw      locked
        db      22              ; make file
        dw      locked
        db      15              ; open file, in locked mode
        dw      locked
        db      15              ; open file, in unlocked mode
        dw      unlocked
        db      34              ; write random, the record of the number that the opening has put there, which is locked
        dw      unlocked
        db      40              ; write random with zero fill
        dw      unlocked
        db      16              ; close file
        dw      unlocked
        db      28              ; write protect disk
        dw      0
        db      37              ; reset drive A
        dw      1
        db      13              ; reset disk system
        dw      0
        db      39              ; free drive A
        dw      1
        db      26              ; set DMA address, which 13 has moved
        dw      password
        db      0
        dw      0
password:
        ds      128,' '
locked: db      0,"WITNESS DAT"
        ds      24,0
renamed:
        db      0,"WITNESS DAT"
        ds      5,0
        db      "STOLEN  DAT"
        ds      8,0
all:    db      0,"???????????"
        ds      24,0
unlocked:
        db      0,"WITN",'E' + 80h,"SS DAT"
        ds      24,0

        include "tell.inc"
