; the component feed: writes a number into its channel and says so, adds 1, and so on
        LI r1, 7
        LI r2, out
        LI r3, 1
again:  STORE r1, 8 bytes at r2
        VMCALL r3                       ; call 1: the channel's event
        ADD r1, r3
        JMP again
