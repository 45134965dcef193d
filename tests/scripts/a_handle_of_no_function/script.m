x = @g
function f(a, b, c)
end
