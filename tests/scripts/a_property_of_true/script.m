true.ReadSize = 1;
