[a] = gather(1, 2);
