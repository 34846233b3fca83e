; COPY OLD.TYP NEW.TYP copies a file, eight records at a time. A file that has the new name already stays as it is. The interpreter
; has put the file control blocks of both names into the base page; the second is moved away, as opening the first uses its place.

bdos    equ     0005h
old     equ     005Ch
second  equ     006Ch

        org     0100h

        ld      hl,second
        ld      de,new
        ld      bc,16
        ldir
        ld      e,0FFh
        ld      c,45            ; set error mode: errors come back, and the program tells them itself
        call    bdos
        ld      hl,old + 6
        set     7,(hl)          ; F6': read-only mode
        ld      de,old
        ld      c,15            ; open file
        call    bdos
        or      a
        ld      de,no_file
        jr      nz,tell
        ld      de,new
        ld      c,22            ; make file
        call    bdos
        or      a
        ld      de,there
        jr      nz,tell
        ld      de,buffer
        ld      c,26            ; set DMA address
        call    bdos
copy:
        ld      e,8
        ld      c,44            ; set multi-sector count
        call    bdos
        ld      de,old
        ld      c,20            ; read sequential
        call    bdos
        or      a
        jr      z,all           ; eight records were read
        ld      a,h             ; so many were read before the end, in the high four bits
        rrca
        rrca
        rrca
        rrca
        and     0Fh
        jr      z,done
        ld      e,a
        ld      c,44            ; set multi-sector count
        call    bdos
        call    write
        jr      nz,full
        jr      done
all:
        call    write
        jr      z,copy
full:
        ld      de,no_room
        jr      tell
done:
        ld      de,new
        ld      c,16            ; close file
        call    bdos
        ld      de,copied
tell:
        ld      c,9             ; print string
        call    bdos
        ld      c,0             ; system reset
        call    bdos

write:
        ld      de,new
        ld      c,21            ; write sequential
        call    bdos
        or      a
        ret

copied:
        db      "copied",13,10,"$"
no_file:
        db      "no such file",13,10,"$"
there:
        db      "it is there already",13,10,"$"
no_room:
        db      "the disk is full",13,10,"$"
new:
        ds      36,0
buffer  equ     $               ; eight records, after the program
