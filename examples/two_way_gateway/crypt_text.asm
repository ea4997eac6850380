; the component crypt: puts a key to the lowest byte of each message; the bytes above it say which key
        LI r9, text
        SETV r9
        LI r8, table                    ; 4,096 keys of a byte
        LI r2, out
        LI r3, in
        LI r4, 1
        LI r6, 8
        STI
wait:   HLT
        JMP wait
.at 0x140                               ; vector 40: the event of in
        JMP take
drop:   RETI                            ; where guard lets a message end
take:   LOAD r5, 8 bytes at r3
        MOV r1, r5
        SHR r1, r6                      ; which key
        ADD r1, r8
        LOAD r1, 1 byte at r1           ; behind the table there is no window: exit 48
        XOR r5, r1
        STORE r5, 8 bytes at r2
        VMCALL r4                       ; call 1: the event of out
        RETI
