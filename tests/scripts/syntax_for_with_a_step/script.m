function f(a, b, c)
for k = 1:2:3
end
end
