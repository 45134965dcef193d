a = true + true
b = true - 3
c = -true
d = +true
e = abs(false)
f = true .* 7
g = true ./ true
h = false - true
