; the first port of the device wan_a
        .u64 wan_a.regs
