a = intmax('uint32') .* 2
b = intmax('uint32') .* -1
c = uint32(6) * 7
d = 6 * uint32(7)
e = intmax('uint32') .* 0
f = intmax('uint32') .* intmax('uint32')
g = intmin('uint32') .* intmax('uint32')
