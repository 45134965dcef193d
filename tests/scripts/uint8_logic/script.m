a = uint8(5) & uint8(0)
b = uint8(5) & 3
c = uint8(0) | false
d = uint8(0) | uint8(2)
e = uint8(4) | uint8(2)
f = uint8(0) & uint8(0)
