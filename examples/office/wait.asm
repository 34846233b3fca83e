; Waits until record 5 of DATA.DAT is free, and takes it: opens the file in unlocked mode, and tries to lock the record every ten
; ticks. It is made as WAIT.PRL, which runs in a segment at any address.

bdos    equ     0005h

        org     base + 0100h

        ld      de,fcb
        ld      c,15            ; open file
        call    base + bdos
        or      a
        jr      nz,missing
        ld      hl,(fcb + 33)   ; the file's id, which locking asks for at the DMA address
        ld      (id),hl
        ld      hl,5
        ld      (fcb + 33),hl   ; record 5
        xor     a
        ld      (fcb + 35),a
        ld      de,id
        ld      c,26            ; set DMA address
        call    base + bdos
try:
        ld      de,fcb
        ld      c,42            ; lock record
        call    base + bdos
        or      a
        jr      z,locked
        ld      de,10
        ld      c,141           ; delay
        call    base + bdos
        jr      try
locked:
        ld      de,mine
        jr      tell
missing:
        ld      de,no_file
tell:
        ld      c,9             ; print string
        call    base + bdos
        ld      c,0             ; system reset: what it has open and locked is given back
        call    base + bdos

mine:
        db      "mine",13,10,"$"
no_file:
        db      "no DATA.DAT",13,10,"$"
id:
        dw      0
fcb:
        db      0,"DATA",' ' + 80h,"   DAT"     ; F5': unlocked mode
        ds      24,0
