; loads a number and halts
        LI r1, 5
        HLT
