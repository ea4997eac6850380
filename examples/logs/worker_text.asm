; the component worker: tells log count after count
        LI r1, log
        LI r2, 1
next:   ADD r3, r2
        STORE r3, 8 bytes at r1
        VMCALL r2                       ; call 1: the event of log
        JMP next
