; the component crypt: puts the key to each message
        LI r9, text + take - in.handler
        SETV r9
        LI r1, key
        LOAD r1, 8 bytes at r1
        LI r2, out
        LI r3, in
        LI r4, 1
        STI
wait:   HLT
        JMP wait
take:   LOAD r5, 8 bytes at r3          ; vector 40: the event of in
        XOR r5, r1
        STORE r5, 8 bytes at r2
        VMCALL r4                       ; call 1: the event of out
        RETI
