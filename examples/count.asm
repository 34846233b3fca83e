; count.bin: counts in decimal from 95 on over 99, by ADD and DAA, and writes each number of two digits by function 2.

kernel: equ     0005h           ; the function in C, its parameter in DE or E

        org     0100h
        ld      a,95h           ; two decimal digits, of four bits each
        ld      b,8             ; how many numbers
next:   push    bc
        push    af
        push    af
        rrca                    ; the high digit
        rrca
        rrca
        rrca
        call    digit
        pop     af              ; the low digit
        call    digit
        ld      a,' '-'0'
        call    write
        pop     af
        add     a,1
        daa
        pop     bc
        djnz    next
        ld      a,13-'0'        ; CR and LF
        call    write
        ld      a,10-'0'
        call    write
        ld      c,0             ; the end
        jp      kernel

digit:  and     0fh
write:  add     a,'0'           ; writes the character A further than '0'
        ld      e,a
        ld      c,2
        jp      kernel          ; which returns to where this was called
