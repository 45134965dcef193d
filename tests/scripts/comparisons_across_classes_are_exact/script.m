a = int64(9007199254740992) + 1 == 9007199254740992
b = int64(9007199254740992) + 1 > 9007199254740992
c = intmax('uint64') > intmax('int64')
d = intmin('int64') < uint8(0)
e = int8(-1) < uint64(0)
f = int8(1) == true
g = true > false
h = uint8(255) == int16(255)
