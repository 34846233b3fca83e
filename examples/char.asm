; char.bin: writes a character by function 2, and ends by function 0.

kernel: equ     0005h           ; the function in C, its parameter in DE or E

        org     0100h
        ld      c,2
        ld      e,'A'
        call    kernel
        ld      c,0             ; the end
        call    kernel
