a = double(int64(9007199254740992))
b = double(intmax('int64'))
