a = uint16(5) & uint16(0)
b = uint16(5) & 3
c = uint16(0) | false
d = uint16(0) | uint16(2)
e = uint16(4) | uint16(2)
f = uint16(0) & uint16(0)
