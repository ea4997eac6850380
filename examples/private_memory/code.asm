; adds a number of the table to one in the subject's own data
data = 0x60_0000                        ; each sees its own, so this isn't one name of the policy
        LI r1, table                    ; both see the same
        LI r2, data
        LOAD r3, 8 bytes at r1
        LOAD r4, 8 bytes at r2
        ADD r4, r3
        STORE r4, 8 bytes at r2
        HLT
