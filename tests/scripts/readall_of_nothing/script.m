r = readall();
