; Uses a disk hard: writes 200 lines, reads all of BIG.DAT, makes NEW.DAT with 40 records, and renames OLD.DAT to NAMED.DAT and deletes
; GONE.DAT, which have three entries each. It writes a letter after each record, and a line after each part.

bdos    equ     0005h

        org     0100h

        ld      b,200
line:
        push    bc
        ld      de,text
        call    tell
        pop     bc
        djnz    line
        ld      de,big
        ld      c,15            ; open file
        call    bdos
read:
        ld      de,big
        ld      c,20            ; read sequential
        call    bdos
        or      a
        jr      nz,ended
        ld      e,'r'
        ld      c,2             ; console output
        call    bdos
        jr      read
ended:
        ld      de,been
        call    tell
        ld      hl,80h          ; the DMA address: zeros again
        ld      de,81h
        ld      (hl),0
        ld      bc,127
        ldir
        ld      de,new
        ld      c,22            ; make file
        call    bdos
        ld      b,40
record:
        push    bc
        ld      a,b
        ld      (80h),a         ; the DMA address
        ld      de,new
        ld      c,21            ; write sequential
        call    bdos
        ld      e,'w'
        ld      c,2             ; console output
        call    bdos
        pop     bc
        djnz    record
        ld      de,made
        call    tell
        ld      de,old
        ld      c,23            ; rename file
        call    bdos
        ld      de,renamed
        call    tell
        ld      de,gone
        ld      c,19            ; delete file
        call    bdos
        ld      de,deleted
        call    tell
        ld      de,done
        call    tell
        ld      c,0             ; system reset
        jp      bdos

tell:
        ld      c,9             ; print string
        jp      bdos

text:   db      "A line of text, as it comes to the console of the guest",13,10,"$"
made:   db      13,10,"made",13,10,"$"
renamed:
        db      "renamed",13,10,"$"
deleted:
        db      "deleted",13,10,"$"
been:   db      13,10,"read",13,10,"$"
done:   db      "done",13,10,"$"
new:    db      0,"NEW     DAT"
        ds      24,0
old:    db      0,"OLD     DAT"
        ds      5,0
        db      "NAMED   DAT"
        ds      8,0
gone:   db      0,"GONE    DAT"
        ds      24,0
big:    db      0,"BIG     DAT"
        ds      24,0
