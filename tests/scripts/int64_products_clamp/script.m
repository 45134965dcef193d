a = intmax('int64') .* 2
b = intmax('int64') .* -1
c = int64(6) * 7
d = 6 * int64(7)
e = intmax('int64') .* 0
f = intmax('int64') .* intmax('int64')
g = intmin('int64') .* intmax('int64')
