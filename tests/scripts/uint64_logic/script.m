a = uint64(5) & uint64(0)
b = uint64(5) & 3
c = uint64(0) | false
d = uint64(0) | uint64(2)
e = uint64(4) | uint64(2)
f = uint64(0) & uint64(0)
