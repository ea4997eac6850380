        .byte 2
