; guest: counts, and puts each number out to its device, which nobody hears
        LI r2, 1
next:   ADD r1, r2
        OUT r1, 4 bytes to port r0 + pad.regs
        JMP next
