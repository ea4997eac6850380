; prober: tries four pages, and counts those that it doesn't see
page = 0x1000
        LI r9, code
        SETV r9
        STI
        LI r1, first
        LI r2, page
        LI r3, first + page + page + page + page
        LI r6, 1
try:    LOAD r4, 8 bytes at r1          ; without a window: trap 48, and it goes on behind the load
        ADD r1, r2
        JB r1, r3, try
        VMCALL r6                       ; call 1: the event done
        HLT
.at 0x140                               ; vector 40: the event missing
        JMP count
        LI r1, first                    ; vector 41: the event done
        STORE r5, 8 bytes at r1
        RETI
count:  ADD r5, r6
        RETI
