a = tail(5);
