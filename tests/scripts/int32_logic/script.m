a = int32(5) & int32(0)
b = int32(5) & 3
c = int32(0) | false
d = int32(0) | int32(2)
e = int32(4) | int32(2)
f = int32(0) & int32(0)
