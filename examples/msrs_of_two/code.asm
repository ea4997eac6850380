; writes an MSR, reads it after the other subject has written it, and tries others
        LI r1, msr.c0000082 - 0x1_0000_0000 ; the low 32 bits count
        RDTSC r2
        WRMSR r2, r1
        RDMSR r3, r1                    ; the other one has run by now
        LI r1, msr.175
        WRMSR r2, r1                    ; exit 32, where it may only read
        RDMSR r3, r1                    ; exit 31, where it may only write
