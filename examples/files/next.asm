; Draws the next number from NUMBER.DAT of the first drive, which others draw from too: its first record has the last number
; that was drawn, a byte. The file is opened in unlocked mode, and made where there is none; the record is locked while it is
; read, raised and written, and whoever finds it locked tries again a tick later. It tells the number as a letter, from A on.

bdos    equ     0005h

        org     0100h

        ld      de,record
        ld      c,26            ; set DMA address
        call    bdos
        ld      de,fcb
        ld      c,15            ; open file
        call    bdos
        or      a
        jr      z,opened
        ld      de,fcb
        ld      c,22            ; make file
        call    bdos
        or      a
        jr      nz,finish
        call    number
        ld      de,fcb
        ld      c,34            ; write random: no number was drawn
        call    bdos
        jr      lock
opened:
        call    number
lock:
        ld      de,id
        ld      c,26            ; set DMA address
        call    bdos
        ld      de,fcb
        ld      c,42            ; lock record
        call    bdos
        or      a
        jr      z,drawn
        cp      8               ; another has locked it
        jr      nz,finish
        ld      de,1
        ld      c,141           ; delay
        call    bdos
        jr      lock
drawn:
        ld      de,record
        ld      c,26            ; set DMA address
        call    bdos
        ld      de,fcb
        ld      c,33            ; read random
        call    bdos
        ld      hl,record
        inc     (hl)
        ld      de,fcb
        ld      c,34            ; write random
        call    bdos
        ld      de,id
        ld      c,26            ; set DMA address
        call    bdos
        ld      de,fcb
        ld      c,43            ; unlock record
        call    bdos
        ld      de,fcb
        ld      c,16            ; close file
        call    bdos
        ld      a,(record)
        add     a,'A' - 1
        ld      e,a
        ld      c,2             ; console output
        call    bdos
        ld      de,line
        ld      c,9             ; print string
        call    bdos
finish:
        ld      c,0             ; system reset
        call    bdos

; keeps the file's id, which the lock asks for, and names record 0
number:
        ld      hl,(fcb + 33)
        ld      (id),hl
        ld      hl,0
        ld      (fcb + 33),hl
        xor     a
        ld      (fcb + 35),a
        ret

line:
        db      13,10,"$"
id:
        dw      0
fcb:
        db      1,"NUMB",'E' + 80h,"R  DAT"     ; F5': unlocked mode
        ds      24,0
record:
        ds      128,0
