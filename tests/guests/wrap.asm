; Lets a return address and a message wrap round at FFFFh. A CALL at SP = 0000h pushes its return address at FFFEh, in common memory;
; a message of two bytes that is read at FFFFh has its second byte at 0000h, in the segment. It writes the word at FFFEh and what it
; should be, and then the bytes at FFFFh and 0000h.

bdos    equ     0005h

        org     0100h

        ld      (stack),sp
        ld      sp,0
        call    pushed
back:
        ld      sp,(stack)
        push    hl
        ld      hl,back
        call    tell_word
        call    tell_space
        pop     hl
        call    tell_word
        call    tell_end
        ld      de,queue
        ld      c,134           ; make queue
        call    bdos
        ld      de,user
        ld      c,135           ; open queue
        call    bdos
        ld      c,139           ; write queue
        call    bdos
        ld      hl,0FFFFh
        ld      (user + 2),hl
        ld      c,137           ; read queue
        call    bdos
        ld      a,(0FFFFh)
        call    tell_letter
        ld      a,(0)
        call    tell_letter
        call    tell_end
        ld      c,0             ; system reset
        jp      bdos
pushed:
        ld      hl,(0FFFEh)
        ret

stack:  dw      0
queue:  db      0,0,"WRAPQ   "
        dw      2,1
        ds      16,0
user:   dw      0,text
        db      "WRAPQ   "
text:   db      "AZ"

        include "tell.inc"
