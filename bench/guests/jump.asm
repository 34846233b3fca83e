; One relative jump to itself.

        org     0100h

start:  jr      start
