; comes to bytes that are no instruction
        NOP
        LI r3, -2
        .byte 255, 0, 0, 0, 0, 0, 0, 0  ; exit 0
