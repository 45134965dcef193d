[a, b] = gather
