; Makes NOTE.TXT on the first drive, writes a text into its first record, and closes it. A file that is there already is
; deleted first. It tells "Written", or "No room" where the directory or the disk is full.

bdos    equ     0005h

        org     0100h

        ld      de,fcb
        ld      c,19            ; delete file
        call    bdos
        ld      de,fcb
        ld      c,22            ; make file
        call    bdos
        or      a
        jr      nz,refused
        ld      de,record
        ld      c,26            ; set DMA address
        call    bdos
        ld      de,fcb
        ld      c,21            ; write sequential
        call    bdos
        or      a
        jr      nz,refused
        ld      de,fcb
        ld      c,16            ; close file
        call    bdos
        ld      de,written
        jr      tell
refused:
        ld      de,no_room
tell:
        ld      c,9             ; print string
        call    bdos
        ld      c,0             ; system reset
        call    bdos

written:
        db      "Written",13,10,"$"
no_room:
        db      "No room",13,10,"$"
record:
        db      "Shared by all who sit here",13,10
        ds      record + 128 - $,1Ah
fcb:
        db      1,"NOTE    TXT"
        ds      24,0
