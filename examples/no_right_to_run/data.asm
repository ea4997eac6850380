; code in a window without the right to execute: it never runs
        LI r1, 5
        HLT
