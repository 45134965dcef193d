x = 1
elseif = 2
