; counter: at each press of the button counts, and tells the count. The names are those of the policy
        LI r9, counter_code + pressed - button.press.handler
        SETV r9
        LI r1, count
        LI r4, count.call
        LI r2, 1
        STI
wait:   HLT
        JMP wait
pressed: ADD r5, r2
        STORE r5, 8 bytes at r1
        VMCALL r4                       ; the event of count
        RETI
