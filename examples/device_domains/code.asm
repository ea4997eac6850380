; loads what the device nic has written into the region buf
        LI r2, buf
        LOAD r1, 8 bytes at r2 + 8      ; behind it are zeros, which are NOPs
