a = unique(5);
