a = cumsum(5);
