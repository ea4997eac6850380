; writes an MSR that isn't granted
        LI r1, 0x174
        WRMSR r2, r1                    ; exit 32
        HLT
