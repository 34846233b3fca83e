; Shows NOTE.TXT of the first drive at the console, up to the byte 1Ah that ends a text. It opens the file in read-only mode,
; so that others may do so meanwhile, but nobody writes it. It tells "No file" where there is none, or where it can't be opened.

bdos    equ     0005h
dma     equ     0080h           ; from the segment's first byte on

        org     0100h

        ld      de,fcb
        ld      c,15            ; open file
        call    bdos
        or      a
        jr      nz,missing
read:
        ld      de,fcb
        ld      c,20            ; read sequential
        call    bdos
        or      a
        jr      nz,done         ; after the last record
        ld      hl,dma
        ld      b,128
byte:
        ld      a,(hl)
        cp      1Ah
        jr      z,done
        push    hl
        push    bc
        ld      e,a
        ld      c,2             ; console output
        call    bdos
        pop     bc
        pop     hl
        inc     hl
        djnz    byte
        jr      read
done:
        ld      de,fcb
        ld      c,16            ; close file
        call    bdos
        jr      finish
missing:
        ld      de,no_file
        ld      c,9             ; print string
        call    bdos
finish:
        ld      c,0             ; system reset
        call    bdos

no_file:
        db      "No file",13,10,"$"
fcb:
        db      1,"NOTE ",0A0h,"  TXT"          ; F6': read-only mode
        ds      24,0
