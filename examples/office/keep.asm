; Keeps record 5 of DATA.DAT for itself until a key is typed: opens the file in unlocked mode, locks the record, tells it, waits, and
; frees the record again. It is made as KEEP.PRL, which runs in a segment at any address.

bdos    equ     0005h

        org     base + 0100h

        ld      de,fcb
        ld      c,15            ; open file
        call    base + bdos
        or      a
        jr      nz,missing
        ld      hl,(fcb + 33)   ; the file's id, which locking asks for at the DMA address
        ld      (id),hl
        ld      hl,5
        ld      (fcb + 33),hl   ; record 5
        xor     a
        ld      (fcb + 35),a
        ld      de,id
        ld      c,26            ; set DMA address
        call    base + bdos
        ld      de,fcb
        ld      c,42            ; lock record
        call    base + bdos
        or      a
        jr      nz,taken
        ld      de,kept
        ld      c,9             ; print string
        call    base + bdos
        ld      c,1             ; console input
        call    base + bdos
        ld      de,fcb
        ld      c,43            ; unlock record
        call    base + bdos
        ld      de,fcb
        ld      c,16            ; close file
        call    base + bdos
        ld      de,free
        jr      tell
taken:
        ld      de,another
        jr      tell
missing:
        ld      de,no_file
tell:
        ld      c,9             ; print string
        call    base + bdos
        ld      c,0             ; system reset
        call    base + bdos

kept:
        db      "kept",13,10,"$"
free:
        db      13,10,"free again",13,10,"$"
another:
        db      "another has it",13,10,"$"
no_file:
        db      "no DATA.DAT",13,10,"$"
id:
        dw      0
fcb:
        db      0,"DATA",' ' + 80h,"   DAT"     ; F5': unlocked mode
        ds      24,0
