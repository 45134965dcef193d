a = intmax('uint8') .* 2
b = intmax('uint8') .* -1
c = uint8(6) * 7
d = 6 * uint8(7)
e = intmax('uint8') .* 0
f = intmax('uint8') .* intmax('uint8')
g = intmin('uint8') .* intmax('uint8')
