; log: looks at its seven channels in turn, and writes what has changed into the journal, which the disk may read
        LI r9, log_text
        LI r1, log_red                  ; the channels are a page each, one behind another
        LI r2, log_last
        LI r3, journal
        LI r4, log_red.size
        LI r5, 8
        LI r6, log_mgmt.end
        LI r12, journal.end
next:   LOAD r7, 8 bytes at r1
        LOAD r8, 8 bytes at r2
        SUB r8, r7
        JZ r8, same
        STORE r7, 8 bytes at r2
        STORE r1, 8 bytes at r3         ; which
        ADD r3, r5
        STORE r7, 8 bytes at r3         ; what
        ADD r3, r5
        OUT r7, 2 bytes to port r0 + disk.doorbell
        JB r3, r12, same
        LI r3, journal
same:   ADD r1, r4
        ADD r2, r5
        JB r1, r6, next
        LI r1, log_red
        LI r2, log_last
        JMP next
