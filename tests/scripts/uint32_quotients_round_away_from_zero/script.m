a = uint32(7) ./ 2
b = -uint32(7) ./ 2
c = uint32(5) ./ uint32(2)
d = uint32(7) / 2
e = 100 ./ uint32(8)
f = uint32(1) ./ 3
g = intmin('uint32') ./ -1
h = uint32(5) ./ true
