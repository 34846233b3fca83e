; Eight instructions over and over, of which each loads, calls or jumps, or is NOP.

        org     0100h

start:  ld      bc,1234h
        ld      a,56h
        ld      de,789ah
        call    round
        jp      start
round:   ld      h,0bch
        nop
        ret
