; loads the last eight bytes below 2^48, and tries the next eight
        LIH r1, 0x1_0000                ; r1 = 2^48
        LOAD r2, 8 bytes at r1 - 8
        LOAD r3, 8 bytes at r1          ; outside all windows: exit 48
