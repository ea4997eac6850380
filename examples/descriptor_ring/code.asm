; driver: gives message after message to the card, by descriptors in a ring, and adds up what comes back
buffers = 0x40                          ; four buffers of 16 bytes stand behind the descriptors
        LI r9, code + done - card.done.handler
        SETV r9
        LI r8, ring                     ; four descriptors of 16 bytes: address (8), length (4), state (4); the descriptor whose turn it is,
        LI r7, d.ring + buffers         ; and its buffer, as the card has it
        LI r1, 0x102                    ; the message
        LI r2, 2                        ; its length
        LI r3, 1                        ; the state of a descriptor that the card may take, and 0 when it is done
        LI r4, 48
        LI r5, 16
        LI r12, ring
        LI r13, d.ring + buffers
        STI
send:   STORE r1, 8 bytes at r8 + buffers
        STORE r7, 8 bytes at r8
        STORE r2, 4 bytes at r8 + 8
        STORE r3, 4 bytes at r8 + 12
        OUT r3, 1 byte to port r0 + card.doorbell
        HLT
        JMP send                        ; here the handler leads back to
done:   LOAD r10, 8 bytes at r8 + buffers ; vector 40: the interrupt done of card
        ADD r11, r10                    ; the sum
        ADD r1, r3                      ; the next message
        ADD r6, r5                      ; the next descriptor,
        AND r6, r4                      ; and behind the last one the first
        MOV r8, r12
        ADD r8, r6
        MOV r7, r13
        ADD r7, r6
        RETI
