a = uint64(7) ./ 2
b = -uint64(7) ./ 2
c = uint64(5) ./ uint64(2)
d = uint64(7) / 2
e = 100 ./ uint64(8)
f = uint64(1) ./ 3
g = intmin('uint64') ./ -1
h = uint64(5) ./ true
