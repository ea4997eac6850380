; keys: makes a slot of the device hsm the current key
        LI r9, keys_text + asked - rekey.handler
        SETV r9
        LI r1, hsm.slots
        LI r2, key
        LI r3, rekey
        LI r10, log_keys
        LI r4, 1
        LI r6, 3
        LOAD r5, 8 bytes at r1          ; slot 0 first
        STORE r5, 8 bytes at r2
        STI
wait:   HLT
        JMP wait
asked:  LOAD r7, 8 bytes at r3
        STORE r7, 8 bytes at r10        ; which slot goes to the log, never the key
        SHL r7, r6
        ADD r7, r1
        LOAD r5, 8 bytes at r7          ; behind the slots there is no window: it stops
        STORE r5, 8 bytes at r2
        RETI
