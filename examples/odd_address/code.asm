; loads two bytes, and tries four, at an address that is a multiple of 2 and not of 4
        LI r1, data
        LOAD r2, 2 bytes at r1 + 2
        LOAD r3, 4 bytes at r1 + 2      ; exit 0
