; where RETI leads while no event was delivered
        RDTSC r5
        HLT
