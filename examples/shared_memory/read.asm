; loads the number from the board, and says so there
        LI r2, board
        LOAD r5, 8 bytes at r2
        LI r1, 1
        STORE r1, 8 bytes at r2 + 8
        HLT
