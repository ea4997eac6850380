; the first port of the device outside
        .u64 outside.regs
