; stores a number on the board, and looks whether the other one has seen it
        LI r1, 7
        LI r2, board
        STORE r1, 8 bytes at r2
        NOP
        LOAD r3, 8 bytes at r2 + 8      ; 1: it has
        HLT
