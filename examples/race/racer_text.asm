; the component racer: stores its number on the board, and looks what stands there then
        LI r1, number
        LI r2, board
        LOAD r3, 1 byte at r1
        STORE r3, 1 byte at r2          ; both do so in tick 3
        LOAD r4, 1 byte at r2
        HLT
