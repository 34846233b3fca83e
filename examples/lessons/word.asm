; WORD adds 1 to the word at C000h in common memory 200 times, from a key on, and shows it. WORD D does so with interrupts off around
; the three instructions. WORD H halts: once with interrupts on, and once with interrupts off.
bdos    equ     base + 0005h
word    equ     0C000h
        org     base + 0100h
        ld      c,3             ; raw console input: waits for a key
        call    bdos
        ld      b,200
        ld      a,(base + 0082h)
        cp      'H'
        jr      z,halts
        cp      'D'
        jr      z,guarded
plain:  ld      hl,(word)
        inc     hl
        ld      (word),hl
        djnz    plain
        jr      show
guarded:di
        ld      hl,(word)
        inc     hl
        ld      (word),hl
        ei
        djnz    guarded

show:   ld      hl,(word)       ; in four hexadecimal digits
        ld      de,text
        ld      a,h
        call    digits
        ld      a,l
        call    digits
        ld      c,9             ; print string
        ld      de,text
        call    bdos
        jp      base            ; the end

digits: push    af
        rrca
        rrca
        rrca
        rrca
        call    digit
        pop     af
digit:  and     0Fh
        add     a,90h
        daa
        adc     a,40h
        daa
        ld      (de),a
        inc     de
        ret
halts:  halt                    ; up to the next event
        ld      c,9
        ld      de,awake
        call    bdos
        di
        halt                    ; for ever
text:   db      "....",13,10,"$"
awake:  db      "awake",13,10,"$"
