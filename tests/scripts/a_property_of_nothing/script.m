nosuch.ReadSize = 1;
