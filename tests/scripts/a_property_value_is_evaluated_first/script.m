nosuch.ReadSize = 1 ./ 0;
