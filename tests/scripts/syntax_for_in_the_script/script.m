for k = 1:3, x = k, end
