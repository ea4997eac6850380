; the tick, a call that nobody hears, and a return from no event
        LI r1, 0x7000
        SETV r1                         ; no event comes, so nothing is looked for there
        RDTSC r2
        LI r3, 9
        VMCALL r3                       ; call 9 isn't declared: nothing more happens
        RDTSC r4
        STI
        CLI
        RETI                            ; goes to address 0, where the region back is
