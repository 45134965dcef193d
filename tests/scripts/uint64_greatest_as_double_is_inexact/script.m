a = double(uint64(9007199254740992))
b = double(intmax('uint64'))
