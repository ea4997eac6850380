; black: waits for events, and sends out a byte of each result that is sealed
        LI r2, sealed
        LI r9, black_code + take - sealed.handler
        SETV r9
        STI
wait:   HLT
        JMP wait
take:   LOAD r5, 8 bytes at r2          ; vector 40: the event of sealed
        OUT r5, 1 byte to port r7 + net.regs
        RETI
        RETI                            ; vector 43: the interrupt rx of net
