; the first port of the device wan_b
        .u64 wan_b.regs
