a = int8(7) ./ 2
b = -int8(7) ./ 2
c = int8(5) ./ int8(2)
d = int8(7) / 2
e = 100 ./ int8(8)
f = int8(1) ./ 3
g = intmin('int8') ./ -1
h = int8(5) ./ true
