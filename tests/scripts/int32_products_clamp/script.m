a = intmax('int32') .* 2
b = intmax('int32') .* -1
c = int32(6) * 7
d = 6 * int32(7)
e = intmax('int32') .* 0
f = intmax('int32') .* intmax('int32')
g = intmin('int32') .* intmax('int32')
