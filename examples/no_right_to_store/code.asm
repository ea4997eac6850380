; loads where it may read alone, and tries to store there
        LI r1, table
        LOAD r2, 8 bytes at r1
        STORE r2, 8 bytes at r1 + 8     ; exit 48
