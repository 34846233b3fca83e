; A program that does its own work while others do their worst: in each of its rounds it writes a record of its file at random and
; reads it back, locks its four records once more, sends itself a message and reads it, and waits for three ticks. It writes a line
; for each round: a letter, and after it `.` for each of the four that went as it should, or else `?`.
; All along it holds the message of a mutual exclusion queue, has its file open in unlocked mode and its records locked.

bdos    equ     0005h
rounds  equ     16

        org     0100h

        ld      de,mutex
        ld      c,134           ; make queue
        call    bdos
        ld      de,mutex_user
        ld      c,135           ; open queue
        call    bdos
        ld      c,140           ; conditional write queue
        call    bdos
        ld      c,137           ; read queue: its message is held from here on
        call    bdos
        ld      de,queue
        ld      c,134           ; make queue
        call    bdos
        ld      de,queue_user
        ld      c,135           ; open queue
        call    bdos
        ld      de,fcb
        ld      c,15            ; open file
        call    bdos
        ld      hl,(fcb + 33)
        ld      (id),hl
        call    lock
round:
        ld      a,(letter)
        call    tell
        ld      a,' '
        call    tell
        call    record
        call    mark
        call    lock
        ld      a,h
        or      l
        call    mark
        call    message
        call    mark
        ld      de,3
        ld      c,141           ; delay
        call    bdos
        ld      a,h
        or      l
        call    mark
        ld      a,13
        call    tell
        ld      a,10
        call    tell
        ld      hl,letter
        inc     (hl)
        ld      a,(hl)
        cp      'a' + rounds
        jr      nz,round
        ld      de,queue
        ld      c,136           ; delete queue
        call    bdos
        ld      de,done
        ld      c,9             ; print string
        call    bdos
        ld      de,mutex_user
        ld      c,139           ; write queue: the message is given back
        call    bdos
        ld      c,0             ; system reset
        jp      bdos

; Writes the round's letter into all bytes of its record, one of four, and reads it back; not zero where other bytes come.
record:
        ld      a,(letter)
        ld      hl,written
        ld      (hl),a
        ld      de,written + 1
        ld      bc,127
        ldir
        and     3
        ld      l,a
        ld      h,0
        ld      (fcb + 33),hl
        xor     a
        ld      (fcb + 35),a
        ld      de,written
        ld      c,34            ; write random
        call    access
        ret     nz
        ld      de,read
        ld      c,33            ; read random
        call    access
        ret     nz
        ld      hl,written
        ld      de,read
        ld      b,128
compare:
        ld      a,(de)
        cp      (hl)
        ret     nz
        inc     de
        inc     hl
        djnz    compare
        ret

; Does function C with the DMA address DE; not zero where it is refused.
access:
        push    bc
        ld      c,26            ; set DMA address
        call    bdos
        pop     bc
        ld      de,fcb
        call    bdos
        ld      a,h
        or      l
        ret

; Locks records 0 to 3.
lock:
        ld      hl,0
        ld      (fcb + 33),hl
        xor     a
        ld      (fcb + 35),a
        ld      de,id
        ld      c,26            ; set DMA address
        call    bdos
        ld      e,4
        ld      c,44            ; set multi-sector count
        call    bdos
        ld      de,fcb
        ld      c,42            ; lock record
        call    bdos
        push    hl
        ld      e,1
        ld      c,44            ; set multi-sector count
        call    bdos
        pop     hl
        ret

; Writes the round's letter to the queue and reads it from there; not zero where another comes.
message:
        ld      a,(letter)
        ld      (sent),a
        ld      hl,sent
        ld      (queue_user + 2),hl
        ld      de,queue_user
        ld      c,139           ; write queue
        call    bdos
        ld      hl,got
        ld      (queue_user + 2),hl
        ld      c,137           ; read queue
        call    bdos
        ld      a,(got)
        ld      hl,letter
        cp      (hl)
        ret

; Writes `.` where zero is set, else `?`.
mark:
        ld      a,'.'
        jr      z,tell
        ld      a,'?'
tell:
        ld      e,a
        ld      c,2             ; console output
        jp      bdos

done:   db      "done",13,10,"$"
letter: db      'a'
sent:   db      0
got:    db      0
id:     dw      0
mutex:  db      0,0,"MXwitn  "
        dw      0,1
mutex_user:
        dw      0,0
        db      "MXwitn  "
queue:  db      0,0,"WITQ    "
        dw      1,2
        ds      16,0
queue_user:
        dw      0,0
        db      "WITQ    "
fcb:    db      0,"WITN",'E' + 80h,"SS DAT"      ; F5': unlocked mode
        ds      24,0
written:
        ds      128,0
read:   ds      128,0
