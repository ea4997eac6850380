; driver: at each interrupt adds up the words of a packet
        LI r9, code
        SETV r9
        LI r8, net.packet
        LI r4, 8
        STI
wait:   HLT
        JMP wait
.at 0x150                               ; vector 42: the interrupt rx
        IN r1, 2 bytes at port r0 + net.length
        MOV r2, r8
        ADD r1, r8                      ; where the packet ends
        SUB r5, r5
next:   LOAD r3, 8 bytes at r2
        ADD r5, r3
        ADD r2, r4
        JB r2, r1, next
        OUT r5, 4 bytes to port r0 + net.sum
        STORE r0, 8 bytes at r8         ; the packet has been taken
        RETI
