; asks for a byte at port 3fd, which isn't granted
serial = 0x3f8
        LI r1, serial
        IN r2, 1 byte at port r1 + 5    ; exit 30
        HLT
