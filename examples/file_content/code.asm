; the file code.bin: muen_asm bin file_content/code.asm code.bin
        .u64 -1                         ; eight bytes ff, which the policy's offset leaves out
        LI r1, 5
        HLT
