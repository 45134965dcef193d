x = first + second;
