        .byte 10
