; writes to ports that aren't granted
        LI r1, -2
        OUT r1, 4 bytes to port r0 + 0x70       ; exit 30
        HLT
