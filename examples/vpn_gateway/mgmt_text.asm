; mgmt: a byte at the console asks for the key of that slot; an alarm is told at the console
        LI r9, mgmt_text + table - alarm.handler
        SETV r9
        LI r2, rekey
        LI r3, alarm
        LI r10, log_mgmt
        LI r4, rekey.call
        STI
wait:   HLT
        JMP wait
table:  JMP told                        ; the event of alarm
        IN r5, 1 byte at port r0 + uart.regs ; and one vector behind it the interrupt rx
        STORE r5, 8 bytes at r2
        VMCALL r4
        STORE r5, 8 bytes at r10
        RETI
told:   LOAD r5, 8 bytes at r3
        OUT r5, 1 byte to port r0 + uart.regs
        RETI
