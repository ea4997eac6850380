; the component crypt: puts the current key to a message; hangs, on purpose, on the poison dead
poison = 0xdead
        LI r9, text + take - in.handler
        SETV r9
        LI r2, out
        LI r3, in
        LI r8, key
        LI r10, log
        LI r4, out.call
        LI r12, 1
        LI r13, poison
        STI
wait:   HLT
        JMP wait
take:   ADD r15, r12                    ; the heartbeat, which wd looks at
        LOAD r5, 8 bytes at r3
        MOV r6, r5
        SUB r6, r13
hang:   JZ r6, hang                     ; the fault: never ends, and events are off
        LOAD r1, 8 bytes at r8
        XOR r5, r1
        STORE r5, 8 bytes at r2
        VMCALL r4
        STORE r15, 8 bytes at r10
        RETI
