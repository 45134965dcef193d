a = int64(5) & int64(0)
b = int64(5) & 3
c = int64(0) | false
d = int64(0) | int64(2)
e = int64(4) | int64(2)
f = int64(0) & int64(0)
