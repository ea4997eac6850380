; reads an MSR that isn't granted
        LI r1, 0x174
        RDMSR r2, r1                    ; exit 31
        HLT
