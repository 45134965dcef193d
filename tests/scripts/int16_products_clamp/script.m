a = intmax('int16') .* 2
b = intmax('int16') .* -1
c = int16(6) * 7
d = 6 * int16(7)
e = intmax('int16') .* 0
f = intmax('int16') .* intmax('int16')
g = intmin('int16') .* intmax('int16')
