; the first port of the device wan
        .u64 wan.regs
