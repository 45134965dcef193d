a = int16(5) & int16(0)
b = int16(5) & 3
c = int16(0) | false
d = int16(0) | int16(2)
e = int16(4) | int16(2)
f = int16(0) & int16(0)
