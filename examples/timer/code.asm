; sleeper: orders a timer to ring, sleeps, and orders it again, in twice as many ticks
        LI r9, code + rung - timer.ring.handler
        SETV r9
        LI r1, 5
        STI
        OUT r1, 1 byte to port r0 + timer.set
wait:   HLT
        JMP wait
rung:   RDTSC r2                        ; vector 40: the interrupt ring of timer
        ADD r1, r1
        OUT r1, 1 byte to port r0 + timer.set
        RETI
