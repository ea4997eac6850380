; one instruction of each kind that computes; the values are those behind it
        LI r1, 12
        LI r2, -5                       ; ffff_ffff_ffff_fffb
        ADD r1, r2                      ; 7
        SUB r2, r1                      ; -12
        LIH r2, 255                     ; ff_ffff_fff4: the upper half alone is another one
        MOV r3, r2
        AND r3, r1                      ; 4, the bits that both have
        LI r4, 0x50
        OR r3, r4                       ; 54
        XOR r3, r1                      ; 53
        LI r5, 68                       ; modulo 64 that is 4
        SHL r3, r5                      ; 530
        SHR r2, r5                      ; f_ffff_ffff
        HLT
