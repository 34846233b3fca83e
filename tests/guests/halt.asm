; Keeps the processor for itself.

        org     0100h

        di
        halt
