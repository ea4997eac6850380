; client: asks, and has the CPU again with the answer; that it asks next
        LI r9, ask
        SETV r9
        LI r2, question
        LI r3, answer
        LI r4, 1
        LI r1, 5
        STI
next:   STORE r1, 8 bytes at r2
        VMCALL r4                       ; call 1: the server runs from the next turn on
        JMP next
.at 0x140                               ; vector 40: the answer
        LOAD r1, 8 bytes at r3
        RETI
