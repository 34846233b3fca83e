; copy.bin: copies a text to 0200h by LDIR, and writes the copy by function 9.

kernel: equ     0005h           ; the function in C, its parameter in DE or E
buffer: equ     0200h

        org     0100h
        ld      hl,text
        ld      de,buffer
        ld      bc,behind-text
        ldir                    ; one byte a step
        ld      de,buffer
        ld      c,9
        call    kernel
        ld      c,0             ; the end
        jp      kernel

text:   db      'Copied by LDIR',13,10,'$'
behind:
