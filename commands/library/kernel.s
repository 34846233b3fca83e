; A call of the kernel: sdcc hands the function over in A and the parameter in DE, and takes the answer in DE.

        .module kernel
        .globl  _call
        .globl  _bdos

        .area   _CODE
_call:: ld      c, a
        push    ix
        call    _bdos
        pop     ix
        ex      de, hl
        ret
