; Makes the calls that tables say, and writes what they answer. The tables come after the program, where tests/plays.py puts them, one for each of five
; processes of one segment. A process goes on in its own until it waits for its turn, which another one gives it: so each call has its place among all,
; or, where nobody waits, they call as they come. IX points at what is a process's own. Lines are kept at 8000h, by whose turn it is, until the first process
; writes them, as it has the console. Calls go to the gate of page BFh itself: page 0 may have anything.

bdos    equ     0BF06h
lines   equ     8000h

        org     0100h

        ld      de,process1
        ld      c,144           ; create process
        call    bdos
        ld      ix,own0
        ld      hl,(table)
keep_place:
        ld      (ix + 1),l
        ld      (ix + 2),h
step:
        ld      l,(ix + 1)
        ld      h,(ix + 2)
        ld      a,(hl)
        inc     hl
        dec     a
        jp      z,give
        dec     a
        jp      z,poke
        dec     a
        jp      z,fill
        dec     a
        jp      z,make_call
        dec     a
        jp      z,last_call
        dec     a
        jp      z,add_up
        dec     a
        jp      z,text
        dec     a
        jp      z,write
        dec     a
        jp      z,wait

; 10: the end of all.
        ld      a,0FFh
        ld      (who),a
finish:
        ld      c,0             ; system reset
        jp      bdos

; 1 N: it is the turn of process N.
give:
        ld      a,(hl)
        ld      (who),a
        inc     hl
        jp      keep_place

; 9: waits for its turn.
wait:
        ld      a,(who)
        cp      (ix + 0)
        jp      z,keep_place
        inc     a
        jr      z,finish
        push    hl
        ld      c,142           ; dispatch
        call    bdos
        pop     hl
        jr      wait

; 2 ADDRESS COUNT BYTES..: puts bytes into memory.
poke:
        call    address
        ld      c,(hl)
        inc     hl
        ld      b,0
        ldir
        jp      keep_place

; 3 ADDRESS COUNT BYTE: fills so many records of 128 bytes, each with a byte that is one more.
fill:
        call    address
        ld      b,(hl)
        inc     hl
        ld      c,(hl)
        inc     hl
        push    hl
fill_record:
        push    bc
        ld      h,d
        ld      l,e
        ld      (hl),c
        inc     de
        ld      bc,127
        ldir
        pop     bc
        inc     c
        djnz    fill_record
        pop     hl
        jp      keep_place

; 5 FUNCTION PARAMETER: as 4, of a process that ends with it: it is the turn of the first one.
last_call:
        xor     a
        ld      (who),a
; 4 FUNCTION PARAMETER: makes the call, and keeps its answer.
make_call:
        ld      c,(hl)
        inc     hl
        call    address
        ld      (ix + 1),l
        ld      (ix + 2),h
        call    bdos
        ld      (ix + 3),l
        ld      (ix + 4),h
        jp      step

; 6 ADDRESS COUNT: keeps two sums of so many bytes: of the bytes, and of those sums.
add_up:
        call    address
        ld      c,(hl)
        inc     hl
        ld      b,(hl)
        inc     hl
        push    hl
        ex      de,hl
        ld      de,0
add_byte:
        ld      a,e
        add     a,(hl)
        ld      e,a
        add     a,d
        ld      d,a
        inc     hl
        dec     bc
        ld      a,b
        or      c
        jr      nz,add_byte
        pop     hl
        ld      (ix + 3),e
        ld      (ix + 4),d
        jp      keep_place

; 7 COUNT BYTES..: keeps a line's next bytes. 7 0: keeps a space and the answer or the sums in hexadecimal digits.
text:
        ld      c,(hl)
        inc     hl
        ld      de,(free)
        ld      b,0
        ld      a,c
        or      a
        jr      z,keep_word
        ldir
kept:
        ld      (free),de
        jp      keep_place
keep_word:
        ld      a,' '
        ld      (de),a
        inc     de
        ld      a,(ix + 4)
        call    keep_byte
        ld      a,(ix + 3)
        call    keep_byte
        jr      kept
keep_byte:
        push    af
        rrca
        rrca
        rrca
        rrca
        call    keep_digit
        pop     af
keep_digit:
        and     0Fh
        add     a,90h           ; 0 to 9 and A to F as ASCII
        daa
        adc     a,40h
        daa
        ld      (de),a
        inc     de
        ret

; 8: writes what is kept.
write:
        push    hl
        ld      hl,(free)
        ld      (hl),'$'
        ld      de,lines
        ld      (free),de
        ld      c,9             ; print string
        call    bdos
        pop     hl
        jp      keep_place

; DE from the table.
address:
        ld      e,(hl)
        inc     hl
        ld      d,(hl)
        inc     hl
        ret

begin1: ld      ix,own1
        ld      hl,(table + 2)
        jp      keep_place
begin2: ld      ix,own2
        ld      hl,(table + 4)
        jp      keep_place
begin3: ld      ix,own3
        ld      hl,(table + 6)
        jp      keep_place
begin4: ld      ix,own4
        ld      hl,(table + 8)
        jp      keep_place

; A process's own: its number, where it is in its table, and the last answer or sums.
own0:   db      0
        dw      0,0
own1:   db      1
        dw      0,0
own2:   db      2
        dw      0,0
own3:   db      3
        dw      0,0
own4:   db      4
        dw      0,0

; Process descriptors: the link, the status, the priority, the stack pointer, the name.
process1:
        dw      process2
        db      0,200
        dw      stack1
        db      "CALLS1  "
        ds      36,0
process2:
        dw      process3
        db      0,200
        dw      stack2
        db      "CALLS2  "
        ds      36,0
process3:
        dw      process4
        db      0,200
        dw      stack3
        db      "CALLS3  "
        ds      36,0
process4:
        dw      0
        db      0,200
        dw      stack4
        db      "CALLS4  "
        ds      36,0
        ds      32,0
stack1: dw      begin1
        ds      32,0
stack2: dw      begin2
        ds      32,0
stack3: dw      begin3
        ds      32,0
stack4: dw      begin4
who:    db      0
free:   dw      lines
; Where each process's table begins, and the tables.
table:
