; The beginning of a program that sdcc compiles: gives the variables their first values, zeros where they have none, calls main, and ends
; by function 0.

        .module start
        .globl  _main
        .globl  _bdos
        .globl  l__DATA
        .globl  s__DATA
        .globl  l__INITIALIZER
        .globl  s__INITIALIZER
        .globl  s__INITIALIZED

        .area   _CODE
        ld      bc, #l__DATA
        ld      hl, #s__DATA
1$:     ld      a, b
        or      a, c
        jr      Z, 2$
        ld      (hl), #0
        inc     hl
        dec     bc
        jr      1$
2$:     ld      bc, #l__INITIALIZER
        ld      a, b
        or      a, c
        jr      Z, 3$
        ld      hl, #s__INITIALIZER
        ld      de, #s__INITIALIZED
        ldir
3$:     call    _main
        ld      c, #0
        jp      _bdos

        ; code, what is constant and first values come before the variables
        .area   _HOME
        .area   _INITIALIZER
        .area   _DATA
        .area   _INITIALIZED
