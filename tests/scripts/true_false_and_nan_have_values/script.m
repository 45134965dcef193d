true
a = false
b = NaN
