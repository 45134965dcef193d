a = int64(7) ./ 2
b = -int64(7) ./ 2
c = int64(5) ./ int64(2)
d = int64(7) / 2
e = 100 ./ int64(8)
f = int64(1) ./ 3
g = intmin('int64') ./ -1
h = int64(5) ./ true
