a = int64(9007199254740992) + 1
b = a + 9007199254740992
c = intmax('int64') - 1
d = intmax('int64') ./ 3
e = intmax('uint64') - 9007199254740992
