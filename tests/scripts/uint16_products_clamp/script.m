a = intmax('uint16') .* 2
b = intmax('uint16') .* -1
c = uint16(6) * 7
d = 6 * uint16(7)
e = intmax('uint16') .* 0
f = intmax('uint16') .* intmax('uint16')
g = intmin('uint16') .* intmax('uint16')
