x = sum;
