x = @f
function f(a, b, c)
end
