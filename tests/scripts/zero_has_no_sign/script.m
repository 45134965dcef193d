a = -0
b = 0 .* -5
c = mod(-4, 4)
d = -false
e = 0 ./ -7
