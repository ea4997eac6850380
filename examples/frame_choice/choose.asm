; chooses major frame 1 as the next one
        LI r1, 1
        LI r2, page                     ; the region of tau0
        STORE r1, 1 byte at r2          ; NOPs from here on
