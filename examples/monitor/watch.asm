; reads the state of s: the state page has register N at 8 x N, and the flags at 152
        LI r2, s.state
        LOAD r5, 8 bytes at r2 + 8      ; register 1 of s
        LOAD r6, 1 byte at r2 + 152     ; its flags
