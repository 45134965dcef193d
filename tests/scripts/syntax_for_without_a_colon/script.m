function f(a, b, c)
for k = 3
end
end
