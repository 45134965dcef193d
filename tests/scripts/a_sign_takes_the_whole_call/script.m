a = -abs(-3)
b = -int8(-128)
