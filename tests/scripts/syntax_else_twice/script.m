function f(a, b, c)
if 1
else
else
end
end
