[a, b] = gather({'x'});
