a = int32(7) ./ 2
b = -int32(7) ./ 2
c = int32(5) ./ int32(2)
d = int32(7) / 2
e = 100 ./ int32(8)
f = int32(1) ./ 3
g = intmin('int32') ./ -1
h = int32(5) ./ true
