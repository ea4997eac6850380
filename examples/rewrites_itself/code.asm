; stores an instruction over the bytes at `here`, and runs it
        LI r1, code
        LI r2, 0x3001                   ; the bytes 01 30 00 00 and 09 00 00 00,
        LIH r2, 9                       ; which are LI r3, 9
        STORE r2, 8 bytes at r1 + here
here:   .u64 -1                         ; no instruction
        HLT
