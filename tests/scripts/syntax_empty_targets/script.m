[] = gather(1)
