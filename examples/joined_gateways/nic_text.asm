; the component nic: sends on what its device has written, and to its device what comes to it
        LI r9, text
        SETV r9
        LI r1, port                     ; has the device's first port
        LOAD r7, 8 bytes at r1
        LI r8, buffer                   ; the device writes here by itself
        LI r2, out
        LI r3, in
        LI r4, 1
        STI
wait:   HLT
        JMP wait
.at 0x140                               ; vector 40: the event of in
        JMP send
        LOAD r5, 8 bytes at r8          ; vector 41: the interrupt rx
        STORE r5, 8 bytes at r2
        VMCALL r4                       ; call 1: the event of out
        RETI
send:   LOAD r5, 8 bytes at r3
        OUT r5, 4 bytes to port r7
        RETI
