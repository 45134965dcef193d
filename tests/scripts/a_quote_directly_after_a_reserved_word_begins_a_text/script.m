function f(a, b, c)
if'a'
end
end
