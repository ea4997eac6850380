; two loops, and jumps over bytes that are no instruction
        LI r1, 3
        LI r3, 1
sum:    ADD r2, r1                      ; 3 + 2 + 1
        SUB r1, r3
        JNZ r1, sum
        JZ r1, count
        .u64 -1                         ; no instruction: it is jumped over
count:  LI r4, 2
more:   ADD r1, r3
        JB r1, r4, more
        JMP end
        .u64 -1
end:    HLT
