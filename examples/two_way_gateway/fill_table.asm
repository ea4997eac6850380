; keys: writes key after key into the table
        LI r1, table
        LI r2, 0x5a                     ; the first key
        LI r3, 0x13                     ; what is between two of them
        LI r4, 1
        LI r5, table + 0x1000
next:   STORE r2, 1 byte at r1
        ADD r2, r3
        ADD r1, r4
        JB r1, r5, next
        HLT
