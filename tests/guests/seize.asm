; Wants the other's console: tries to attach it, asks for it by a new process, and waits for it for ever. It writes the answers of
; what is refused: 149 for console 1, 162 by a process that has console 1, and 148 for a console that isn't there.

bdos    equ     0005h

        org     0100h

        ld      de,assigned
        ld      c,149           ; assign console
        call    bdos
        call    tell_word
        call    tell_space
        ld      de,descriptor
        ld      c,144           ; create process
        call    bdos
        ld      de,5
        ld      c,141           ; delay
        call    bdos
        ld      hl,(answer)
        call    tell_word
        call    tell_space
        ld      e,2
        ld      c,148           ; set console
        call    bdos
        call    tell_word
        call    tell_end
        ld      e,1
        ld      c,148           ; set console
        call    bdos
        jp      write

child:
        ld      c,162           ; conditional attach console
        call    bdos
        ld      (answer),hl
        ld      c,146           ; attach console
        call    bdos
write:
        ld      a,'!'
        call    tell_letter
        jr      write

answer: dw      0
assigned:
        db      1,"SEIZE   ",0
descriptor:
        dw      0
        db      0,200
        dw      stack
        db      "CHILD   ",1,0,0,0
        ds      64,0
stack:  dw      child

        include "tell.inc"
