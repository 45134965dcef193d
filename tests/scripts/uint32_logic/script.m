a = uint32(5) & uint32(0)
b = uint32(5) & 3
c = uint32(0) | false
d = uint32(0) | uint32(2)
e = uint32(4) | uint32(2)
f = uint32(0) & uint32(0)
