a = int8(5) & int8(0)
b = int8(5) & 3
c = int8(0) | false
d = int8(0) | int8(2)
e = int8(4) | int8(2)
f = int8(0) & int8(0)
