; Takes all that there is, in four processes, one after the other: each opens sixteen files in unlocked mode, of which the process has
; no more, and locks 32 records of the first. Then it makes queues until there are no more. It writes how many files it opened, how many records it locked,
; and how many queues it made; holds all that for thirty ticks; and its processes end without giving anything back.

bdos    equ     0005h

        org     0100h

        ld      de,waiting
        ld      c,134           ; make queue
        call    bdos
        ld      de,waiting_user
        ld      c,135           ; open queue
        call    bdos
        ld      de,first
        ld      c,144           ; create process: all three
        call    bdos
        ld      hl,0
        call    take
wait:
        ld      de,1
        ld      c,141           ; delay
        call    bdos
        ld      a,(ready)
        cp      4
        jr      nz,wait
make:
        ld      de,queue
        ld      c,134           ; make queue
        call    bdos
        ld      hl,queue + 9
        inc     (hl)
        ld      hl,queues
        inc     (hl)
        or      a
        jr      z,make
        dec     (hl)
        ld      a,(files)
        call    tell_byte
        call    tell_space
        ld      a,(records)
        call    tell_byte
        call    tell_space
        ld      a,(queues)
        call    tell_byte
        call    tell_end
        ld      de,30
        ld      c,141           ; delay
        call    bdos
        ld      de,waiting_user
        ld      c,139           ; write queue: each of the three ends
        call    bdos
        call    bdos
        call    bdos
        ld      c,0             ; system reset
        jp      bdos

child1:
        ld      hl,32
        jr      child
child2:
        ld      hl,64
        jr      child
child3:
        ld      hl,96
child:
        push    hl
turn:
        ld      de,1
        ld      c,141           ; delay
        call    bdos
        pop     hl
        push    hl
        ld      a,(ready)       ; those that have taken theirs, times 32
        rrca
        rrca
        rrca
        cp      l
        jr      nz,turn
        pop     hl
        call    take
        ld      de,waiting_user
        ld      c,137           ; read queue
        call    bdos
        ld      c,0             ; system reset
        jp      bdos

; Opens the files and locks 32 records from HL on; no other process does so meanwhile.
take:
        ld      (number),hl
        ld      e,0FFh
        ld      c,45            ; set BDOS error mode: answers, and reports nothing
        call    bdos
        ld      a,'A' + 80h     ; F5': unlocked mode
file:
        ld      (fcb + 5),a
        push    af
        ld      de,fcb
        ld      c,15            ; open file
        call    bdos
        or      a
        jr      nz,refused
        ld      hl,files
        inc     (hl)
refused:
        pop     af
        cp      'A' + 80h
        call    z,keep
        inc     a
        cp      'Q' + 80h
        jr      nz,file
        ld      de,id
        ld      c,26            ; set DMA address
        call    bdos
        ld      e,16
        ld      c,44            ; set multi-sector count
        call    bdos
        ld      hl,(number)
        call    lock
        ld      de,16
        add     hl,de
        call    lock
        ld      hl,ready
        inc     (hl)
        ret

; Keeps the file control block of the first file; A stays.
keep:
        push    af
        ld      hl,fcb
        ld      de,kept
        ld      bc,36
        ldir
        ld      hl,(kept + 33)
        ld      (id),hl
        pop     af
        ret

; Locks sixteen records from HL on, which stays, and counts those that were locked.
lock:
        push    hl
        ld      (kept + 33),hl
        xor     a
        ld      (kept + 35),a
        ld      de,kept
        ld      c,42            ; lock record
        call    bdos
        ld      a,h
        or      l
        ld      a,16
        jr      z,locked
        ld      a,h             ; 16 times those that were locked, above the code
        rrca
        rrca
        rrca
        rrca
        and     0Fh
locked:
        ld      hl,records
        add     a,(hl)
        ld      (hl),a
        pop     hl
        ret

ready:  db      0
files:  db      0
records:
        db      0
queues: db      0
number: dw      0
id:     dw      0
fcb:    db      0,"GRAB",'A' + 80h,"   DAT"
        ds      24,0
kept:   ds      36,0
queue:  db      0,0,"GRABBEDA"
        dw      1,1
        ds      16,0
waiting:
        db      0,0,"GRABQ   "
        dw      0,3
        ds      16,0
waiting_user:
        dw      0,0
        db      "GRABQ   "
first:  dw      second
        db      0,200
        dw      stack1
        db      "GRAB1   ",0,0,0,0
        ds      32,0
second: dw      third
        db      0,200
        dw      stack2
        db      "GRAB2   ",0,0,0,0
        ds      32,0
third:  dw      0
        db      0,200
        dw      stack3
        db      "GRAB3   ",0,0,0,0
        ds      32,0
        ds      32,0
stack1: dw      child1
        ds      32,0
stack2: dw      child2
        ds      32,0
stack3: dw      child3

        include "tell.inc"
