; counts by 16
        LI r2, 16
again:  ADD r1, r2
        JMP again
