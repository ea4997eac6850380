; display: shows each count that counter tells. The names are those of the policy
        LI r9, display_code + told - count.handler
        SETV r9
        LI r1, count
        STI
wait:   HLT
        JMP wait
told:   LOAD r5, 8 bytes at r1
        OUT r5, 4 bytes to port r0 + panel.digits
        RETI
