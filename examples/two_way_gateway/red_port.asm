; the first port of the device inside
        .u64 inside.regs
