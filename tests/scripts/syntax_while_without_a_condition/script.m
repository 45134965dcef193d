function f(a, b, c)
while
end
end
