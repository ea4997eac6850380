; watch: at an alarm looks at encrypt, and keeps black silent for a while
message = 40                            ; there register 5
        LI r9, watch_code
        SETV r9
        LI r1, choice                   ; the region of tau0
        LI r2, report
        LI r3, encrypt.state            ; which it may read
        LI r4, 1
        LI r6, 50                       ; ticks
        STI
wait:   HLT
        JMP wait
.at 0x140                               ; vector 40: the event alarm
        STORE r4, 1 byte at r1          ; major frame 1, in which black has no ticks
        LOAD r5, 8 bytes at r3 + message
        STORE r5, 8 bytes at r2         ; the report
        RDTSC r7
        ADD r7, r6
pause:  RDTSC r8
        JB r8, r7, pause
        STORE r0, 1 byte at r1          ; major frame 0
        VMCALL r4                       ; call 1: the event clear
        RETI
