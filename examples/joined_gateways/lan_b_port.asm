; the first port of the device lan_b
        .u64 lan_b.regs
