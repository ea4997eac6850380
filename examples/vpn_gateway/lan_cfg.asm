; the first port of the device lan
        .u64 lan.regs
