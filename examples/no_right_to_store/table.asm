        .byte 42
