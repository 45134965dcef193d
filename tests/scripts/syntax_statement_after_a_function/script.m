x = 1
function f(a, b, c)
end
y = 2
