a = int16(7) ./ 2
b = -int16(7) ./ 2
c = int16(5) ./ int16(2)
d = int16(7) / 2
e = 100 ./ int16(8)
f = int16(1) ./ 3
g = intmin('int16') ./ -1
h = int16(5) ./ true
