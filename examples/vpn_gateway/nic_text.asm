; the component nic: passes on what its card has written into a ring of four buffers of 64 bytes, and sends what comes
        LI r9, text + table - in.handler
        SETV r9
        LI r1, cfg
        LOAD r7, 8 bytes at r1          ; the card's first port
        LI r8, ring                     ; the buffer whose turn it is; its first word is the message
        LI r2, out
        LI r3, in
        LI r10, log
        LI r4, out.call
        LI r6, 64
        LI r11, ring + 256
        STI
wait:   HLT
        JMP wait
table:  JMP send                        ; the event of in
        JMP receive                     ; and one vector behind it the interrupt rx
receive: LOAD r5, 8 bytes at r8
        STORE r5, 8 bytes at r2
        VMCALL r4
        STORE r5, 8 bytes at r10
        ADD r8, r6
        JB r8, r11, done
        LI r8, ring
done:   RETI
send:   LOAD r5, 8 bytes at r3
        OUT r5, 4 bytes to port r7 + 4
        RETI
