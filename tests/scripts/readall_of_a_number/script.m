r = readall(1);
