; stores through one window of the region data, and loads through both
        LI r1, data                     ; rights rw
        LI r2, data.2                   ; the same region, rights r
        LI r3, -2
        STORE r3, 4 bytes at r1 + 8
        LOAD r4, 8 bytes at r2 + 8
        LOAD r5, 1 byte at r2 + 8
        LOAD r6, 2 bytes at r2 + 10
        LOAD r7, 4 bytes at r1 + 12
        STORE r3, 1 byte at r1
        STORE r3, 2 bytes at r1 + 2
        STORE r4, 8 bytes at r2 + data - data.2 + 16
        HLT
