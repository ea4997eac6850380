; every kind of line: instructions, data, offsets, labels, names for numbers, a comment, nothing

base = 0x40_0000        ; where a policy has it
back=-8
com = 16#03F8#
start:
        LI r9, base + handler - 320
        LIH r15, 0xffff_ffff
        SETV r9
        STI
        MOV r1, r2
        ADD r3, r4
        SUB r5, r6
        AND r7, r8
        OR r10, r11
        XOR r12, r13
        SHL r14, r15
        SHR r0, r1
loop:   LOAD r2, 1 byte at r3
        LOAD r4, 2 bytes at r5 + 2
        LOAD r6, 4 bytes at r7 - 4
        LOAD r8, 8 bytes at r9 + com
        STORE r10, 1 byte at r11 + 1 - 2
        STORE r12, 2 bytes at r13
        STORE r14, 4 bytes at r15 - back
        STORE r0, 8 bytes at r1 + words - bytes
        IN r2, 1 byte at port r3 + com
        IN r4, 2 bytes at port r5
        IN r6, 4 bytes at port r7 - 1
        OUT r8, 1 byte to port r9 + com + 1
        OUT r10, 2 bytes to port r11
        OUT r12, 4 bytes to port r13
        RDMSR r14, r15
        WRMSR r0, r1
        RDTSC r2
        VMCALL r3
        JZ r4, loop             ; to a label
        JNZ r5, there
        JB r6, r7, loop - back  ; to eight bytes behind it
        CLI
        NOP
there:  HLT
        JMP there
        JMP there - loop        ; by a distance
        JMP back
.at 0x140
handler: RETI                   ; of vector 40
bytes:  .byte 0x0f, -1, 255, -128, 16#0_A#
        .u16 0x1234, -2
        .at 344
words:  .u32 base + there, -2147483648
        .u64 18446744073709551615, - start + handler + 1
end:    .byte 1, 2
