; driver: sleeps, and adds up the number in the next of four buffers at each interrupt
        LI r9, code + take - nic.rx.handler
        SETV r9
        LI r8, ring
        LI r4, 64                       ; the size of a buffer
        LI r7, 192                      ; the offset of the last one
        STI
wait:   HLT
        JMP wait
take:   MOV r2, r8                      ; vector 40: the interrupt rx of nic
        ADD r2, r6
        LOAD r1, 8 bytes at r2
        ADD r5, r1                      ; the sum
        ADD r6, r4                      ; the next buffer,
        AND r6, r7                      ; and behind the last one the first
        RETI
