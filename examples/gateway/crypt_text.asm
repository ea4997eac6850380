; the component crypt: puts a job and a key together, writes the result and says so, and so on
        LI r2, out
        LI r3, 1
        LI r4, job
again:  LOAD r5, 8 bytes at r4
        LOAD r6, 8 bytes at r4 + key - job
        XOR r5, r6
        STORE r5, 8 bytes at r2
        VMCALL r3                       ; call 1: the event of out
        JMP again
