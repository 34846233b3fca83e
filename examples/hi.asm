; hi.bin: writes a line by function 9, and ends by function 0.

kernel: equ     0005h           ; the function in C, its parameter in DE or E

        org     0100h
        ld      c,9
        ld      de,text
        call    kernel
        ld      c,0             ; the end
        call    kernel

text:   db      'Hi',13,10,'$'
