[a, b] = gather(1 + 'x');
