a = gather(5)
b = gather(gather('x'))
[c, d] = gather(true, int8(3))
