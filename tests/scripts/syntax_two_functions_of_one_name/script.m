function f(a, b, c)
end
function f(a, b, c)
end
