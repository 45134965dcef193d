a = uint16(7) ./ 2
b = -uint16(7) ./ 2
c = uint16(5) ./ uint16(2)
d = uint16(7) / 2
e = 100 ./ uint16(8)
f = uint16(1) ./ 3
g = intmin('uint16') ./ -1
h = uint16(5) ./ true
