; the first port of the device lan_a
        .u64 lan_a.regs
