; log: at each event adds up what its three channels have
        LI r9, log_code
        SETV r9
        LI r1, log_sensor               ; and those of motor and radio behind it
        LI r2, journal
        STI
wait:   HLT
        JMP wait
.at 0x140                               ; vectors 40, 41 and 42: the events of the channels
        JMP add
        JMP add
        JMP add
add:    LOAD r4, 8 bytes at r1
        LOAD r5, 8 bytes at r1 + log_motor - log_sensor
        LOAD r6, 8 bytes at r1 + log_radio - log_sensor
        ADD r4, r5
        ADD r4, r6
        STORE r4, 8 bytes at r2
        RETI
