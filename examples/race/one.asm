        .byte 1
