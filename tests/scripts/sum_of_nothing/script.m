s = sum();
