; guard: has the CPU of encrypt from where that one has left its windows, until watch has looked
pc = 128
        LI r3, 1
        VMCALL r3                       ; call 1: the event alarm
        LI r9, guard_code
        SETV r9
        LI r1, encrypt.state            ; which it may change
        LI r2, encrypt.state.entry + 0x148 ; drop, of crypt
        LI r4, 2
        STI
wait:   HLT
        JMP wait
.at 0x140                               ; vector 40: the event clear
        STORE r2, 8 bytes at r1 + pc    ; encrypt goes on there, so its message is never sent
        VMCALL r4                       ; call 2: the event resume hands the CPU back
        VMCALL r3                       ; here it has the CPU again: the next alarm
        RETI
