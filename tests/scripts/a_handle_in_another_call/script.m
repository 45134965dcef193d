x = numel(@f)
function f(a, b, c)
end
