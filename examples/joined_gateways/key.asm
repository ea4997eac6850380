; the key of both gateways
        .u64 0xa5a5
