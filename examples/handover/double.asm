; server: answers with twice the number, and hands the CPU back
        LI r2, question
        LI r3, answer
        LI r4, 1
serve:  LOAD r1, 8 bytes at r2
        ADD r1, r1
        STORE r1, 8 bytes at r3
        VMCALL r4                       ; call 1: the client runs from the next turn on
        JMP serve                       ; here it goes on when it is asked again
