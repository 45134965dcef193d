a = intmax('uint64') .* 2
b = intmax('uint64') .* -1
c = uint64(6) * 7
d = 6 * uint64(7)
e = intmax('uint64') .* 0
f = intmax('uint64') .* intmax('uint64')
g = intmin('uint64') .* intmax('uint64')
