a = intmax('int8') .* 2
b = intmax('int8') .* -1
c = int8(6) * 7
d = 6 * int8(7)
e = intmax('int8') .* 0
f = intmax('int8') .* intmax('int8')
g = intmin('int8') .* intmax('int8')
