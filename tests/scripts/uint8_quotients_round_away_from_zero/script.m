a = uint8(7) ./ 2
b = -uint8(7) ./ 2
c = uint8(5) ./ uint8(2)
d = uint8(7) / 2
e = 100 ./ uint8(8)
f = uint8(1) ./ 3
g = intmin('uint8') ./ -1
h = uint8(5) ./ true
