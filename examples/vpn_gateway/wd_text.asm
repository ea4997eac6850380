; wd: at each interrupt of the timer looks at enc and dec by their state pages, and enters one anew that hangs
pc = 128                                ; of a state page
flags = 152
beat = 120                              ; register 15
        LI r9, wd_text + timed - timer.tick.handler
        SETV r9
        LI r1, enc.state
        LI r2, dec.state
        LI r3, wd_data                  ; the last heartbeats of enc and dec, and at 16 how often one was entered anew
        LI r4, alarm
        LI r10, log_wd
        LI r11, alarm.call              ; which is 1
        LI r12, enc.state.entry         ; and that of dec
        LI r13, 2                       ; halted
        LI r14, 8                       ; exited
        STI
wait:   HLT
        JMP wait
timed:  LOAD r5, 1 byte at r1 + flags
        AND r5, r13
        JNZ r5, encok                   ; idle
        LOAD r6, 8 bytes at r1 + beat
        LOAD r7, 8 bytes at r3
        STORE r6, 8 bytes at r3
        SUB r7, r6
        JNZ r7, encok                   ; it has gone on
        STORE r12, 8 bytes at r1 + pc   ; hung: enter it anew
        STORE r14, 1 byte at r1 + flags
        LOAD r7, 8 bytes at r3 + 16
        ADD r7, r11
        STORE r7, 8 bytes at r3 + 16
        STORE r7, 8 bytes at r4
        STORE r7, 8 bytes at r10
        VMCALL r11
encok:  LOAD r5, 1 byte at r2 + flags
        AND r5, r13
        JNZ r5, decok
        LOAD r6, 8 bytes at r2 + beat
        LOAD r7, 8 bytes at r3 + 8
        STORE r6, 8 bytes at r3 + 8
        SUB r7, r6
        JNZ r7, decok
        STORE r12, 8 bytes at r2 + pc
        STORE r14, 1 byte at r2 + flags
        LOAD r7, 8 bytes at r3 + 16
        ADD r7, r11
        STORE r7, 8 bytes at r3 + 16
        STORE r7, 8 bytes at r4
        STORE r7, 8 bytes at r10
        VMCALL r11
decok:  RETI
