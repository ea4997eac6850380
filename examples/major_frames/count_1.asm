; counts by 1
        LI r2, 1
again:  ADD r1, r2
        JMP again
